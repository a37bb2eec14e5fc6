/* Search groups the arcs by the mode that they leave: models whose arcs come in one order and another, and leave all modes, some or one. */
#include "calls.h"

enum { MODES = CHARGEPLAN_MODES_MOST, ARCS = CHARGEPLAN_ARCS_MOST, OTHER_ORDERS = 4 };

struct model reordered(const struct model *m, const uint8_t *order, struct lists *to)
{
    struct model r = listed(m->n, m->k, to, m->sources_length);
    size_t i;

    r.start = m->start;
    r.barred = m->barred;
    for (i = 0; i < m->sources_length; i++) {
        if (!plain_is_on(m->switches, order[i]))
            r.switches = with_off(r.switches, i);
        to->sources[i] = m->sources[order[i]];
        to->targets[i] = m->targets[order[i]];
        to->draws[i] = m->draws[order[i]];
        to->gains[i] = m->gains[order[i]];
        to->colours[i] = m->colours[order[i]];
        to->actions[i] = m->actions[order[i]];
    }
    return r;
}

/* Search finds a plan, or says that there is none. */
static void answered(const char *what, const struct model *m, uint32_t c, uint32_t b, int has_plan)
{
    if (has_plan)
        found(what, m, c, b);
    else
        refused(what, m, c, b, CHARGEPLAN_NO_PLAN, 0);
}

/* The same with the arcs as they are, with the last first, and mixed. */
static void in_any_order(const char *what, const struct model *m, uint32_t c, uint32_t b, int has_plan)
{
    struct lists lists;
    uint8_t order[ARCS];
    size_t arcs = m->sources_length, i;
    int turn;

    answered(what, m, c, b, has_plan);
    for (i = 0; i < arcs; i++)
        order[i] = (uint8_t)(arcs - 1 - i);
    for (turn = 0; turn < OTHER_ORDERS; turn++) {
        struct model r = reordered(m, order, &lists);

        answered(what, &r, c, b, has_plan);
        shuffle(order, arcs);
    }
}

/* An arc more, which draws or gains. */
static void add(struct lists *to, size_t *arcs, uint32_t source, uint32_t target, int weight, unsigned colours)
{
    struct arc arc = {source, target, chargeplan_draw_of((int16_t)weight), chargeplan_gain_of((int16_t)weight), colours, 0};

    put(to, *arcs, arc);
    ++*arcs;
}

/* A ring whose arcs come in ascending order of source, and in descending order where the last is first. */
static void test_descending(void)
{
    enum { RING = 16 };
    struct lists lists;
    struct model m;
    size_t arcs = 0;
    uint32_t i;

    for (i = 0; i < RING; i++)
        add(&lists, &arcs, i, (i + 1) % RING, i + 1 < RING ? 1 : 1 - RING, i % 5 == 0 ? 1u << i / 5 : 0);
    m = listed(RING, 4, &lists, arcs);
    in_any_order("a ring in any order", &m, 0, RING - 1, 1);
    in_any_order("a ring in any order, too small a bound", &m, 0, RING - 2, 0);
}

/* 255 arcs that leave one mode of 64; the arc `at`, if there is one, is a loop, and the others lead to modes that no arc leaves. */
static void one_source(uint32_t mode, size_t at)
{
    struct lists lists;
    struct model m;
    size_t arcs = 0;

    while (arcs < ARCS)
        add(&lists, &arcs, mode, arcs == at ? mode : (mode + 1 + (uint32_t)arcs % (MODES - 1)) % MODES, 0, 0);
    m = listed(MODES, 0, &lists, arcs);
    m.start = mode;
    in_any_order("255 arcs from one mode", &m, 1, 1, at < ARCS);
    m.start = (mode + 1) % MODES;
    in_any_order("255 arcs from a mode that is not reached", &m, 1, 1, 0);
}

static void test_one_source(void)
{
    static const uint32_t modes[] = {0, 31, MODES - 1};
    static const size_t loops[] = {0, 127, ARCS - 1, ARCS};
    size_t i, j;

    for (i = 0; i < sizeof modes / sizeof modes[0]; i++)
        for (j = 0; j < sizeof loops / sizeof loops[0]; j++)
            one_source(modes[i], loops[j]);
}

/* A ring of four modes, each with an arc to a mode that no arc leaves; between them, before and after them are modes without arcs. */
static void test_gaps(void)
{
    static const uint32_t ring[] = {7, 20, 21, 61}, ends[] = {8, 0, 22, MODES - 1};
    static const int weights[] = {2, -1, 0, -1};
    struct lists lists;
    struct model m;
    size_t arcs = 0, i;

    for (i = 0; i < 4; i++) {
        add(&lists, &arcs, ring[i], ring[(i + 1) % 4], weights[i], i < 2 ? 1u << i : 0);
        add(&lists, &arcs, ring[i], ends[i], 3, 3);
    }
    m = listed(MODES, 2, &lists, arcs);
    m.start = 7;
    in_any_order("modes without arcs between", &m, 0, 2, 1);
    in_any_order("modes without arcs between, too small a bound", &m, 0, 1, 0);
    m.start = 22;
    in_any_order("the start mode has no arcs", &m, 0, 2, 0);
}

/* Arcs only from the last mode, one of them a loop. */
static void test_last_mode(void)
{
    struct lists lists;
    struct model m;
    size_t arcs = 0;

    add(&lists, &arcs, MODES - 1, 0, 1, 0);
    add(&lists, &arcs, MODES - 1, MODES - 1, 0, 1);
    add(&lists, &arcs, MODES - 1, MODES - 2, 1, 0);
    m = listed(MODES, 1, &lists, arcs);
    in_any_order("arcs only from the last mode, which is not reached", &m, 0, 1, 0);
    m.start = MODES - 1;
    in_any_order("arcs only from the last mode", &m, 0, 1, 1);
    m.n = MODES - 1;
    m.start = 0;
    all_refused("arcs only from a mode after the last", &m, 0, 1, CHARGEPLAN_UNFIT_ARC, 0);
}

/* A loop of the last mode beside 254 arcs that lead there from mode 0. */
static void test_last_place(void)
{
    struct lists lists;
    struct model m;
    size_t arcs = 0;

    while (arcs < ARCS - 1)
        add(&lists, &arcs, 0, MODES - 1, 0, 0);
    add(&lists, &arcs, MODES - 1, MODES - 1, 0, 1);
    m = listed(MODES, 1, &lists, arcs);
    in_any_order("one arc from the last mode", &m, 0, 1, 1);
    lists.draws[ARCS - 1] = 1;
    in_any_order("one arc from the last mode, which draws", &m, 1, 1, 0);
}

/* Examples E and F with each arc many times. */
static void test_equal_arcs(void)
{
    struct lists lists;
    struct model m;
    size_t arcs = 0;

    while (arcs < ARCS)
        add(&lists, &arcs, arcs > ARCS / 2, arcs <= ARCS / 2, arcs > ARCS / 2 ? -3 : 3, 0);
    m = listed(2, 0, &lists, arcs);
    in_any_order("equal arcs", &m, 10, 10, 1);
    in_any_order("equal arcs, too small a bound", &m, 2, 2, 0);
}

void test_groups(void)
{
    test_descending();
    test_one_source();
    test_gaps();
    test_last_mode();
    test_last_place();
    test_equal_arcs();
}
