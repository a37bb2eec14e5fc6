/* Models of 255 arcs of which one alone draws, or alone gains, at every place: a call that does not read it there answers otherwise. */
#include "calls.h"

enum { LAST = CHARGEPLAN_ARCS_MOST - 1 };

/* One mode with one colour; the arcs are all like `others`, but for the one at this place. */
static struct model with_lone(struct lists *to, struct arc others, size_t at, struct arc lone)
{
    size_t a;

    for (a = 0; a < CHARGEPLAN_ARCS_MOST; a++)
        put(to, a, a == at ? lone : others);
    return listed(1, 1, to, CHARGEPLAN_ARCS_MOST);
}

/* The others gain 1; the arc at this place draws 5 and has the colour. */
static void lone_draw(uint8_t at)
{
    static const struct arc others = {0, 0, 0, 1, 0, 0}, lone = {0, 0, 5, 0, 1, 0};
    uint8_t o = at == 0 ? LAST : 0, plan[] = {o, o, o, o, o, at};
    struct stop drawn = {at, 0, 0, 0};
    struct lists lists;
    struct model m = with_lone(&lists, others, at, lone);
    struct gauge g;

    judged("one arc draws: judged", &m, 0, 5, 0, 6, plan, 6, CHARGEPLAN_YES, 0);
    judged("one arc draws: charged too little", &m, 0, 5, 0, 5, plan + 1, 5, CHARGEPLAN_IMPOSSIBLE_STEP, 4);
    judged("one arc draws: a second time", &m, 5, 5, 0, 1, plan + 5, 1, CHARGEPLAN_IMPOSSIBLE_STEP, 1);
    found("one arc draws: search", &m, 0, 5);
    refused("one arc draws: search, the bound is below the draw", &m, 4, 4, CHARGEPLAN_NO_PLAN, 0);
    started("one arc draws: gauge", &g, &m, 5, 5, CHARGEPLAN_YES, 0);
    moved("one arc draws: gauge", &g, &m, 5, drawn);
    stepped("one arc draws: empty gauge", &g, &m, 5, at, CHARGEPLAN_IMPOSSIBLE_STEP, 0);
    walked("one arc draws: walk", &m, 0, 5, 0, 6, plan, 6, 0, 9, met(6));
    walked("one arc draws: walk, charged too little", &m, 0, 5, 0, 5, plan + 1, 5, 0, 9, walk_refused(CHARGEPLAN_IMPOSSIBLE_STEP, 4));
}

/* The others draw 1 and have the colour; the arc at this place gains 5. */
static void lone_gain(uint8_t at)
{
    static const struct arc others = {0, 0, 1, 0, 1, 0}, lone = {0, 0, 0, 5, 0, 0};
    uint8_t o = at == 0 ? LAST : 0, plan[] = {at, o, o, o, o, o, o};
    struct stop gained = {at, 0, 5, 0}, spilled = {at, 0, 5, 5};
    struct lists lists;
    struct model m = with_lone(&lists, others, at, lone);
    struct gauge g;

    judged("one arc gains: judged", &m, 0, 5, 0, 6, plan, 6, CHARGEPLAN_YES, 0);
    judged("one arc gains: one draw more", &m, 0, 5, 0, 7, plan, 7, CHARGEPLAN_IMPOSSIBLE_STEP, 6);
    found("one arc gains: search", &m, 0, 5);
    refused("one arc gains: search, the bound is below the draws", &m, 0, 0, CHARGEPLAN_NO_PLAN, 0);
    started("one arc gains: gauge", &g, &m, 0, 5, CHARGEPLAN_YES, 0);
    moved("one arc gains: gauge", &g, &m, 5, gained);
    moved("one arc gains: full gauge", &g, &m, 5, spilled);
    walked("one arc gains: walk", &m, 0, 5, 0, 6, plan, 6, 0, 9, met(2));
    walked("one arc gains: walk, one draw more", &m, 0, 5, 0, 7, plan, 7, 0, 9, walk_refused(CHARGEPLAN_IMPOSSIBLE_STEP, 6));
}

/* 5 names the arc: starting a gauge, too, which uses draws and gains for nothing else, reads it. */
static void lone_unfit(uint8_t at)
{
    static const struct arc others = {0, 0, 0, 1, 0, 0}, draws = {0, 0, CHARGEPLAN_DRAW_MOST + 1, 0, 0, 0},
                            gains = {0, 0, 0, CHARGEPLAN_GAIN_MOST + 1, 0, 0}, acts = {0, 0, 0, 1, 0, CHARGEPLAN_ACTION_MOST + 1};
    struct lists lists;
    struct model m = with_lone(&lists, others, at, draws);

    all_refused("5: the draw of one arc", &m, 0, 5, CHARGEPLAN_UNFIT_ARC, at);
    m = with_lone(&lists, others, at, gains);
    all_refused("5: the gain of one arc", &m, 0, 5, CHARGEPLAN_UNFIT_ARC, at);
    m = with_lone(&lists, others, at, acts);
    all_refused("5: the action of one arc", &m, 0, 5, CHARGEPLAN_UNFIT_ARC, at);
}

static void at_every_place(void (*run)(uint8_t at))
{
    unsigned at;

    for (at = 0; at <= LAST; at++)
        run((uint8_t)at);
}

void test_lone_draw(void)
{
    at_every_place(lone_draw);
}

void test_lone_gain(void)
{
    at_every_place(lone_gain);
}

void test_lone_unfit(void)
{
    at_every_place(lone_unfit);
}
