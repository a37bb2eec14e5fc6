/*
 * The switches (document 02, Ask 9) in search: which bit is which arc, that only arcs that are on stand in a plan, and that judging, gauge
 * and walk know every arc. The reach is in reach.c.
 */
#include "calls.h"

#include <string.h>

enum { ARCS = CHARGEPLAN_ARCS_MOST, BITS = 64 * CHARGEPLAN_ON_WORDS };

/* Search with these switches finds a plan, or says that there is none. */
static void searched_on(const char *what, struct model m, struct switches s, uint32_t c, uint32_t b, int has_plan)
{
    m.switches = s;
    if (has_plan)
        found(what, &m, c, b);
    else
        refused(what, &m, c, b, CHARGEPLAN_NO_PLAN, 0);
}

/* One mode and 255 arcs that change nothing: where one alone is on, the plan is this arc. The last bit is no arc's. */
void test_switch_bits(void)
{
    struct model m = model(1, 0, ARCS, zeros, zeros, nothing, nothing, zeros);
    uint8_t plan[2];
    size_t a;

    for (a = 0; a < ARCS; a++) {
        uint64_t answer;

        m.switches = with_on(all_off, a);
        answer = search_exactly("one arc is on", &m, 0, 0, plan);
        check(chargeplan_prefix(answer) == 0 && chargeplan_cycle(answer) == 1 && plan[0] == a, "the plan is the arc that is on");
    }
    searched_on("all arcs are off", m, all_off, 0, 0, 0);
    searched_on("a bit that is no arc's", m, with_on(all_off, ARCS), 0, 0, 0);
}

/* One mode and 255 arcs, of which all but one draw: there is a plan where this one is on, at every place. */
void test_lone_switch(void)
{
    uint16_t draws[ARCS];
    struct model m;
    size_t a;

    for (a = 0; a < ARCS; a++)
        draws[a] = 1;
    m = model(1, 0, ARCS, zeros, zeros, draws, nothing, zeros);
    for (a = 0; a < ARCS; a++) {
        draws[a] = 0;
        searched_on("all arcs but one are off", m, with_on(all_off, a), 0, 0, 1);
        searched_on("one arc is off", m, with_off(all_on, a), 0, 0, 0);
        searched_on("one arc and one bit of each word are off", m, with_off(with_off(all_on, (a + 1) % ARCS), (a + 64) % BITS), 0, 0, 1);
        draws[a] = 1;
    }
}

/* The longest plan that is found where there are few pairs. */
enum { FOUND_MOST = (CHARGEPLAN_COLOURS_MOST + 2) * PLAIN_PAIRS_MOST };

/* Search with two sets of switches that are the same for the arcs: one answer, and one plan. */
static void same_found(const char *what, struct model m, uint32_t c, uint32_t b, struct switches s, struct switches other)
{
    uint8_t plan[FOUND_MOST], again[FOUND_MOST];
    uint64_t answer;

    m.switches = s;
    answer = search_exactly(what, &m, c, b, plan);
    m.switches = other;
    check(search_exactly(what, &m, c, b, again) == answer, what);
    check(same(plan, again, chargeplan_prefix(answer) + chargeplan_cycle(answer)), what);
}

struct switches with_from(struct switches s, size_t m, int set)
{
    for (; m < BITS; m++)
        s = set ? with_on(s, m) : with_off(s, m);
    return s;
}

/* Models of many lengths, of two modes whose last arc alone leads back, with any bits at or above m: "Bits at or above m are ignored." */
void test_switches_ignored(void)
{
    static const size_t lengths[] = {0, 1, 2, 3, 31, 32, 33, 62, 63, 64, 65, 127, 128, 129, 191, 192, 193, 253, 254, 255};
    struct lists lists;
    size_t i, a;

    for (i = 0; i < sizeof lengths / sizeof lengths[0]; i++) {
        size_t m = lengths[i];
        struct model two = listed(2, 0, &lists, m);
        struct switches s = all_on;

        for (a = 0; a < m; a++) {
            struct arc arc = {a + 1 == m, a + 1 != m, 0, 0, 0, 0};

            put(&lists, a, arc);
            if (a + 2 < m && a % 3 == 0)
                s = with_off(s, a);
        }
        same_found("all on, other bits above", two, 0, 0, all_on, with_from(all_on, m, 0));
        same_found("some off, other bits above", two, 0, 0, with_from(s, m, 1), with_from(s, m, 0));
        searched_on("some off, no bits above", two, with_from(s, m, 0), 0, 0, m >= 2);
        searched_on("all off, all bits above", two, with_from(all_off, m, 1), 0, 0, 0);
        searched_on("the last off, all bits above", two, m == 0 ? all_on : with_off(all_on, m - 1), 0, 0, 0);
    }
}

/* Document 01's examples with each set of their arcs on, against the plain search. */
void test_switched_examples(void)
{
    struct model of[] = {model_a(), model_b(), model_e(), model_g(), model_j()};
    size_t i;
    uint64_t on;
    uint32_t b, c;

    for (i = 0; i < sizeof of / sizeof of[0]; i++)
        for (on = 0; on < (uint64_t)1 << of[i].sources_length; on++)
            for (b = 0; b <= 10; b++)
                for (c = 0; c <= b; c += 1 + b / 3) {
                    struct model m = of[i];

                    m.switches.on[0] = on;
                    searched_on("an example with any arcs on", m, m.switches, c, b, plain_has_plan(&m, c, b));
                }
}

/* Mode 0 charges, by a loop or by way of mode 2, and with 5 a way leads to mode 1, whose loop meets the colour; a second way draws 6. */
enum { CHARGES, LEAVES, STAYS, LEAVES_TOO, REACHES_2, RETURNS };

static struct model model_two_ways(struct lists *lists)
{
    static const struct arc arcs[] = {
        {0, 0, 0, 1, 0, 0}, {0, 1, 5, 0, 0, 0}, {1, 1, 0, 0, 1, 0}, {0, 1, 6, 0, 0, 0}, {0, 2, 0, 0, 0, 0}, {2, 0, 0, 1, 0, 0}};

    return of_arcs(lists, 3, 1, arcs, sizeof arcs / sizeof arcs[0]);
}

/* An arc that is off in the prefix, in the cycle, and on the way to the charge that is needed. */
void test_switched_search(void)
{
    struct lists lists;
    struct model m = model_two_ways(&lists);

    searched_on("all on", m, all_on, 0, 5, 1);
    searched_on("the way is off, and the other draws more", m, with_off(all_on, LEAVES), 0, 6, 1);
    searched_on("the same with too small a bound", m, with_off(all_on, LEAVES), 0, 5, 0);
    searched_on("both ways are off", m, with_off(with_off(all_on, LEAVES), LEAVES_TOO), 6, 6, 0);
    searched_on("the cycle is off", m, with_off(all_on, STAYS), 6, 6, 0);
    searched_on("one of two charging loops is off", m, with_off(all_on, CHARGES), 0, 5, 1);
    searched_on("the other is off", m, with_off(all_on, RETURNS), 0, 5, 1);
    searched_on("both are off", m, with_off(with_off(all_on, CHARGES), REACHES_2), 4, 6, 0);
    searched_on("both are off, and not needed", m, with_off(with_off(all_on, CHARGES), REACHES_2), 5, 6, 1);
    m.start = 1;
    searched_on("the cycle alone is on", m, with_on(all_off, STAYS), 0, 0, 1);
    searched_on("the cycle alone is off", m, with_off(all_on, STAYS), 0, 0, 0);
    m.start = 0;
    m.barred = 1;
    searched_on("the colour is barred, and a charging loop off", m, with_off(all_on, CHARGES), 0, 5, 1);
    searched_on("the colour is barred, and both loops off", m, with_off(with_off(all_on, CHARGES), RETURNS), 5, 5, 0);
}

/* A required colour on an arc that is off does not count, and a barred one does not harm. */
void test_switched_colours(void)
{
    static const struct arc arcs[] = {{0, 0, 0, 0, 3, 0}, {0, 0, 0, 0, 1, 0}, {0, 0, 0, 0, 2, 0}};
    struct lists lists;
    struct model m = of_arcs(&lists, 1, 2, arcs, 3);

    searched_on("both colours on one arc", m, with_on(all_off, 0), 0, 0, 1);
    searched_on("both colours on two arcs", m, with_off(all_on, 0), 0, 0, 1);
    searched_on("one colour is off", m, with_on(all_off, 1), 0, 0, 0);
    searched_on("the other is off", m, with_on(all_off, 2), 0, 0, 0);
    m.barred = 2;
    searched_on("an arc without the barred colour", m, all_on, 0, 0, 1);
    searched_on("it is off", m, with_off(all_on, 1), 0, 0, 0);
    searched_on("the arcs with the barred colour are off", m, with_on(all_off, 1), 0, 0, 1);
}

/* "judging and gauge still know every arc": a plan of arcs that are off is judged, walked and stepped as ever, and search finds none. */
void test_switched_plans(void)
{
    static const uint8_t plan_i[] = {0, 0, 0, 0, 0, 1, 2};
    struct stop stop = {0, 0, 1, 0};
    struct model m = model_g();
    struct gauge g;

    m.switches = all_off;
    refused("search uses no arc that is off", &m, 0, 5, CHARGEPLAN_NO_PLAN, 0);
    judged("judging knows every arc", &m, 0, 5, 6, 1, plan_i, 7, CHARGEPLAN_YES, 0);
    walked("the walk knows every arc", &m, 0, 5, 6, 1, plan_i, 7, 0, 7, met(7));
    started("the gauge knows every arc", &g, &m, 0, 5, CHARGEPLAN_YES, 0);
    moved("the gauge knows every arc", &g, &m, 5, stop);
}

/* 1 to 9 do not go by the switches: an unfit arc that is off is 5, and buffers and product are looked at before any arc. */
void test_switched_refusals(void)
{
    static const struct arc unfit[] = {{0, 0, 0, 0, 0, 0}, {0, 0, 10001, 0, 0, 0}, {1, 0, 0, 0, 0, 0}};
    struct lists lists;
    struct model m = of_arcs(&lists, 1, 0, unfit, 3), a = model_a(), none = without_arcs(64, 0);

    m.switches = all_off;
    all_refused("5: the lowest unfit arc, off", &m, 0, 5, CHARGEPLAN_UNFIT_ARC, 1);
    m.switches = with_on(all_off, 2);
    all_refused("5: the lowest unfit arc, off, and another, on", &m, 0, 5, CHARGEPLAN_UNFIT_ARC, 1);
    a.switches = none.switches = all_off;
    all_refused("6: all off", &a, 6, 5, CHARGEPLAN_LEVELS, 0);
    check_answer("7: all off", search("7: all off", &none, 0, 128, 0, 0, 3), CHARGEPLAN_PRODUCT, 0);
    check_answer("8: all off", search("8: all off", &a, 0, 5, 23, 12, 3), CHARGEPLAN_WORKING_SPACE, 0);
    check_answer("9: all off", search("9: all off", &a, 0, 5, 24, 11, 3), CHARGEPLAN_PLAN_BUFFER, 0);
    check_answer("10: all off", search("10: all off", &a, 0, 5, 24, 12, 3), CHARGEPLAN_NO_PLAN, 0);
    check_answer("10: all off, longer buffers", search("10: all off", &a, 0, 5, 99, 99, 3), CHARGEPLAN_NO_PLAN, 0);
}

/* The model without the arcs that are off, in these lists. */
static struct model without_off(const struct model *m, struct lists *to)
{
    struct model r;
    size_t a, arcs = 0;

    for (a = 0; a < m->sources_length; a++) {
        struct arc arc = {m->sources[a], m->targets[a], m->draws[a], m->gains[a], m->colours[a], m->actions[a]};

        if (plain_is_on(m->switches, a))
            put(to, arcs++, arc);
    }
    r = listed(m->n, m->k, to, arcs);
    r.start = m->start;
    r.barred = m->barred;
    return r;
}

/* A model as large as search takes, with draws and gains for its bound, of which one arc in four, or three in four, is off. */
static struct model random_switched_model(struct lists *lists, uint32_t *b)
{
    struct model m = random_large_model(lists);
    size_t a;

    *b = CHARGEPLAN_PRODUCT_MOST / m.n - 1;
    random_moves(lists, m.sources_length, *b / 2 + 1, *b / 4 + 1);
    m.switches = below(4) == 0 ? all_off : all_on;
    for (a = 0; a < m.sources_length; a++)
        if (below(4) == 0)
            m.switches.on[a / 64] ^= (uint64_t)1 << a % 64;
    return m;
}

/* Search with arcs off, and of the model without them: there is a plan for both or for neither. Models too large for the plain search. */
void test_random_switched(unsigned long models)
{
    struct lists lists, fewer;
    unsigned long i, with_plan = 0;

    for (i = 0; i < models; i++) {
        uint32_t b, number;
        struct model m = random_switched_model(&lists, &b), r = without_off(&m, &fewer);
        uint32_t c = below(b + 1);
        size_t words = chargeplan_work_words(m.n, m.k, b), bytes = chargeplan_plan_bytes(m.n, m.k, b);

        number = chargeplan_number(search("arcs that are off", &m, c, b, words, bytes, 0x1234u));
        check(number == CHARGEPLAN_YES || number == CHARGEPLAN_NO_PLAN, "arcs that are off");
        check(number == chargeplan_number(search("no such arcs", &r, c, b, words, bytes, 0x4321u)), "arcs that are off, and no such arcs");
        with_plan += number == CHARGEPLAN_YES;
    }
    if (models >= 100)
        check(with_plan >= models / 8 && with_plan <= models - models / 8, "models with a plan and without");
}
