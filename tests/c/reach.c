/*
 * The reach (document 02, Ask 9): fresh tables, their refusals, and single switchings. Sequences of switchings are in reach_random.c; 1 to
 * 6 also come where all_refused() is called.
 */
#include "reaches.h"

#include <string.h>

enum { MODES = CHARGEPLAN_MODES_MOST, ARCS = CHARGEPLAN_ARCS_MOST, B_MOST = CHARGEPLAN_BOUND_MOST, NONE = CHARGEPLAN_UNREACHED };

/* Document 01's examples. */
static void test_examples_reached(void)
{
    static const uint16_t full[] = {5, 0}, no_way[] = {4, NONE}, start_only[] = {0, NONE}, ends[] = {NONE, 3}, e_full[] = {10, 10},
                          e_low[] = {2, 2}, j_full[] = {2};
    struct model g = model_g(), e = model_e(), j = model_j(), b = model_b();

    reaches("G", &g, 0, 5, full);
    reaches("H", &g, 0, 4, no_way);
    reaches("E", &e, 10, 10, e_full);
    reaches("F", &e, 2, 2, e_low);
    reaches("J", &j, 0, 2, j_full);
    reaches("J, charged", &j, 2, 2, j_full);
    reaches("B keeps what it began with", &b, 5, 5, full);
    g.start = 1;
    reaches("G from the other mode", &g, 3, 5, ends);
    g.start = 0;
    g.switches = with_off(all_on, 0);
    reaches("G, and it cannot charge", &g, 0, 5, start_only);
    reaches("G, and it need not", &g, 5, 5, full);
    g.switches = with_off(all_on, 1);
    reaches("G without its way", &g, 0, 4, no_way);
}

/* The example of docs/C-API.md: each arc alone off. */
static void test_example(void)
{
    static const struct arc arcs[] = {{0, 1, 0, 20, 0, 0}, {1, 0, 10, 0, 0, 0}, {1, 2, 30, 0, 0, 0}};
    static const uint16_t all[] = {25, 35, 5}, off[][3] = {{0, NONE, NONE}, {0, 20, NONE}, {25, 35, NONE}};
    struct lists lists;
    struct model m = of_arcs(&lists, 3, 0, arcs, 3);
    size_t a;

    reaches("the example of docs/C-API.md", &m, 0, 35, all);
    for (a = 0; a < 3; a++) {
        m.switches = with_off(all_on, a);
        reaches("the example of docs/C-API.md, one arc off", &m, 0, 35, off[a]);
    }
}

/*
 * Document 001's trap: "Raising all modes of a gaining loop to b". The way to mode 1 gains 20, the way back draws 10: mode 0 is raised
 * round by round, and never above b - 10, unless it began there.
 */
static void test_trap(void)
{
    static const struct arc arcs[] = {{0, 1, 0, 20, 0, 0}, {1, 0, 10, 0, 0, 0}};
    static const uint32_t bounds[] = {10, 19, 20, 21, 29, 30, 31, 127, 1000, B_MOST};
    struct lists lists;
    struct model m = of_arcs(&lists, 2, 0, arcs, 2);
    size_t i;

    for (i = 0; i < sizeof bounds / sizeof bounds[0]; i++) {
        uint32_t b = bounds[i];
        uint16_t low[] = {(uint16_t)(b - 10), (uint16_t)b}, high[] = {(uint16_t)(b - 3), (uint16_t)b};

        reaches("one mode never passes b - 10", &m, 0, b, low);
        reaches("it began above that", &m, b - 3, b, high);
    }
}

/*
 * A loop of all modes, of which the arc from the start mode gains and the others draw 1: each mode has its own top, b one step behind the
 * start mode, and one less with each step. With a gain of one less the loop raises nothing.
 */
static void tops_from(uint32_t start)
{
    enum { B = 200 };
    struct lists lists;
    struct model m;
    uint16_t tops[MODES], kept[MODES];
    uint32_t i;

    for (i = 0; i < MODES; i++) {
        uint32_t mode = (start + i) % MODES;
        struct arc arc = {mode, (mode + 1) % MODES, i > 0, i > 0 ? 0 : MODES, 0, 0};

        put(&lists, mode, arc);
        tops[mode] = (uint16_t)(B + 1 - (i > 0 ? i : MODES));
        kept[mode] = (uint16_t)(7 + MODES - (i > 0 ? i : MODES));
    }
    m = listed(MODES, 0, &lists, MODES);
    m.start = start;
    reaches("each mode of a loop has its own top", &m, 0, B, tops);
    lists.gains[start] = MODES - 1;
    reaches("a loop that gains nothing", &m, 7, B, kept);
}

static void test_tops(void)
{
    uint32_t start;

    for (start = 0; start < MODES; start++)
        tops_from(start);
}

/* A gaining loop that is possible only with the charge of another, and a loop that gains only below the bound. */
static void test_loops_of_loops(void)
{
    static const struct arc arcs[] = {{0, 0, 0, 1, 0, 0}, {0, 1, 50, 0, 0, 0}, {1, 1, 40, 42, 0, 0}, {1, 2, 90, 0, 0, 0},
        {2, 0, 0, 3, 0, 0}, {2, 2, 7, 5, 0, 0}};
    static const uint16_t full[] = {100, 100, 10}, no_second[] = {89, 39, NONE}, second[] = {90, 90, 0}, no_third[] = {49, NONE, NONE};
    struct lists lists;
    struct model m = of_arcs(&lists, 3, 0, arcs, 6);

    reaches("three loops", &m, 0, 100, full);
    reaches("the second loop cannot be begun", &m, 0, 89, no_second);
    reaches("the second loop can", &m, 0, 90, second);
    reaches("only the first", &m, 0, 49, no_third);
}

void test_reach_tables(void)
{
    test_examples_reached();
    test_example();
    test_trap();
    test_tops();
    test_loops_of_loops();
}

/* A chain of 64 modes: each charges by a loop that gains 1, and all its charge is drawn on the way to the next. */
static struct model chain(struct lists *to, uint32_t b)
{
    uint32_t i;

    for (i = 0; i < MODES; i++) {
        struct arc loop = {i, i, 0, 1, 0, 0}, way = {i, i + 1, b, 0, 0, 0};

        put(to, i, loop);
        if (i + 1 < MODES)
            put(to, MODES + i, way);
    }
    return listed(MODES, 0, to, 2 * MODES - 1);
}

/* n * (b + 1) above 8,192, which search refuses: 7 is not looked at. */
static void test_long_chain(void)
{
    struct lists lists;
    struct model m = chain(&lists, B_MOST);
    uint16_t charges[MODES];
    uint32_t i;

    for (i = 0; i < MODES; i++)
        charges[i] = B_MOST;
    reaches("a chain of 64 modes, b 8,191", &m, 0, B_MOST, charges);
    m.switches = with_off(all_on, 62);
    charges[62] = 0;
    charges[63] = NONE;
    reaches("one loop is off, and its mode is left by no arc", &m, 0, B_MOST, charges);
    lists.draws[MODES] = B_MOST - 1;
    m.switches = with_off(all_on, MODES + 1);
    for (i = 2; i < MODES; i++)
        charges[i] = NONE;
    reaches("one way is off", &m, 0, B_MOST, charges);
}

/* A chain of draws alone: each mode has what the arcs before it left. The arcs come in ascending and in descending order. */
static void test_falling_chain(void)
{
    struct lists lists;
    struct model m;
    uint16_t charges[MODES];
    uint32_t i;

    for (i = 0; i < MODES; i++) {
        struct arc arc = {i, i + 1, 100, 0, 0, 0};

        charges[i] = (uint16_t)(i <= 50 ? 5000 - 100 * i : NONE);
        if (i + 1 < MODES)
            put(&lists, i, arc);
    }
    m = listed(MODES, 0, &lists, MODES - 1);
    reaches("a chain of draws", &m, 5000, B_MOST, charges);
    for (i = 0; i + 1 < MODES; i++) {
        struct arc arc = {i, i + 1, 100, 0, 0, 0};

        put(&lists, MODES - 2 - i, arc);
    }
    reaches("a chain of draws, the last first", &m, 5000, B_MOST, charges);
}

/* 1 to 64 modes, of which no arc, or an arc in each direction, leads from one to the next; places from n on are unreached. */
static void test_mode_counts(void)
{
    struct lists lists;
    uint16_t alone[MODES], all[MODES];
    uint32_t n, i;

    for (i = 0; i < MODES; i++) {
        struct arc up = {i, i + 1, 1, 1, 0, 0}, down = {i + 1, i, 1, 0, 0, 0};

        alone[i] = NONE;
        all[i] = 9;
        if (i + 1 < MODES) {
            put(&lists, 2 * i, up);
            put(&lists, 2 * i + 1, down);
        }
    }
    for (n = 1; n <= MODES; n++) {
        struct model m = without_arcs(n, n % 5);

        m.start = n - 1;
        alone[n - 1] = (uint16_t)n;
        reaches("no arcs", &m, n, B_MOST, alone);
        alone[n - 1] = NONE;
        m = listed(n, n % 5, &lists, 2 * (n - 1));
        reaches("every mode below n is reached", &m, 9, 9, all);
    }
}

/* One mode with 255 arcs, of which one gains, at every place; b 0 and b 8,191. */
static void test_one_mode(void)
{
    static const uint16_t empty[] = {0}, full[] = {B_MOST}, gained[] = {300};
    uint16_t gains[ARCS] = {0}, draws[ARCS] = {0};
    struct model m = model(1, 0, ARCS, zeros, zeros, draws, gains, zeros);
    size_t a;

    for (a = 0; a < ARCS; a++) {
        gains[a] = 300;
        reaches("b 0", &m, 0, 0, empty);
        reaches("one arc gains", &m, 0, 300, gained);
        m.switches = with_off(all_on, a);
        reaches("it is off", &m, 0, 300, empty);
        m.switches = all_on;
        gains[a] = 0;
    }
    gains[200] = 1;
    reaches("one arc gains 1", &m, 0, B_MOST, full);
    draws[200] = 1;
    reaches("one arc draws 1 and gains 1", &m, 0, B_MOST, empty);
    gains[200] = CHARGEPLAN_GAIN_MOST;
    draws[200] = CHARGEPLAN_DRAW_MOST;
    reaches("the greatest draw is above every bound", &m, 0, B_MOST, empty);
    draws[200] = B_MOST;
    reaches("the greatest bound and gain", &m, B_MOST, B_MOST, full);
}

void test_reach_sizes(void)
{
    test_long_chain();
    test_falling_chain();
    test_mode_counts();
    test_one_mode();
}

/* Colours and actions, which no charge goes by. */
void test_reach_colours(void)
{
    struct lists lists;
    uint32_t k, action;

    for (k = 0; k <= CHARGEPLAN_COLOURS_MOST; k++) {
        static const uint16_t charges[] = {3};
        struct model m = every_colouring(&lists, k);

        reaches("an arc for every set of colours", &m, 3, 5, charges);
        for (action = 0; action <= CHARGEPLAN_ACTION_MOST; action++) {
            lists.actions[0] = (uint8_t)action;
            reaches("every action", &m, 3, 5, charges);
        }
    }
}

/* Every set of faults of the model, with right and wrong levels and arc numbers: the first is answered. A fresh reach has no number. */
void test_reach_order(void)
{
    static const char what[] = "the order of the refusals";
    struct lists lists;
    unsigned faults;
    uint32_t c, arc;

    for (faults = 0; faults < 1u << MODEL_FAULTS; faults++)
        for (c = 5; c <= 6; c++)
            for (arc = 2; arc <= 3; arc++) {
                struct model m = with_faults(&lists, faults, 2);
                uint32_t own = first_fault(faults), number = own != 0 ? own : c > 5 ? CHARGEPLAN_LEVELS : CHARGEPLAN_YES;
                uint32_t detail = own == CHARGEPLAN_UNFIT_ARC ? 2 : 0;

                if (number != CHARGEPLAN_YES)
                    start_refused(what, &m, c, 5, number, detail);
                if (number != CHARGEPLAN_YES || arc == 3)
                    switch_refused(what, &m, c, 5, arc, number != CHARGEPLAN_YES ? number : CHARGEPLAN_ARC_NUMBER, detail);
            }
}

/* 12, detail 0: numbers that are not cut down, and models of many lengths. */
void test_reach_numbers(void)
{
    static const uint32_t numbers[] = {255, 256, 257, 511, 65535, 65536, 65537, 0x1000000u, 0x7fffffffu, 0x80000000u, UINT32_MAX};
    static const size_t lengths[] = {0, 1, 63, 64, 65, 128, 254, 255};
    size_t i, j;

    for (i = 0; i < sizeof lengths / sizeof lengths[0]; i++) {
        struct model m = model(1, 0, lengths[i], zeros, zeros, nothing, nothing, zeros);

        for (j = 0; j < sizeof numbers / sizeof numbers[0]; j++)
            switch_refused("12: a great number", &m, 0, 5, numbers[j], CHARGEPLAN_ARC_NUMBER, 0);
        switch_refused("12: the number of arcs", &m, 0, 5, (uint32_t)lengths[i], CHARGEPLAN_ARC_NUMBER, 0);
        switch_refused("12: one more", &m, 0, 5, (uint32_t)lengths[i] + 1, CHARGEPLAN_ARC_NUMBER, 0);
    }
}

/* 0 switches the arc off, and every other byte on. */
static void switched_by_every_byte(const struct model *m, struct chargeplan_reach r, uint32_t arc)
{
    unsigned byte;

    for (byte = 0; byte <= UINT8_MAX; byte++) {
        struct chargeplan_reach s = reach_switched("every byte", r, m, 3, 5, arc, (uint8_t)byte);

        check(chargeplan_is_on(s.on, arc) == (byte > 0), "every byte");
    }
}

/* "Switching an arc to what it is already changes nothing", also in a reach that no call has made; any other switching makes it right. */
void test_reach_junk(void)
{
    static const struct arc arcs[] = {{0, 0, 0, 1, 0, 0}, {0, 1, 5, 0, 0, 0}, {1, 1, 0, 0, 1, 0}, {1, 2, 0, 0, 0, 0}};
    struct lists lists;
    struct model m = of_arcs(&lists, 3, 1, arcs, 4);
    uint32_t arc;
    unsigned junk;

    for (junk = 0; junk < 64; junk++)
        for (arc = 0; arc < 4; arc++) {
            struct chargeplan_reach r = junk_reach(junk), other;
            uint8_t on = (uint8_t)chargeplan_is_on(r.on, arc);

            check_same_reach("what it is already", reach_switched("what it is already", r, &m, 0, 5, arc, on), r);
            other = reach_switched("what it is not", r, &m, 0, 5, arc, !on);
            check(chargeplan_is_on(other.on, arc) == !on, "the arc is switched");
            memcpy(m.switches.on, other.on, sizeof other.on);
            check_same_reach("what was in a reach does not matter", other, start_reach("a fresh reach", &m, 0, 5).reach);
        }
    switched_by_every_byte(&m, junk_reach(3), 1);
    switched_by_every_byte(&m, junk_reach(4), 1);
}

/* Another credit, bound, start mode or model than before: the charges are those of this call, or as they were where nothing is switched. */
void test_reach_levels(void)
{
    struct model g = model_g(), e = model_e();
    struct chargeplan_reach r = reach_started("G", &g, 0, 5), kept;

    kept = reach_switched("nothing is switched, with another credit", r, &g, 3, 5, 0, 1);
    check_same_reach("nothing is switched, with another credit", kept, r);
    kept = reach_switched("nothing is switched, with another bound", r, &g, 0, 4, 1, 1);
    check_same_reach("nothing is switched, with another bound", kept, r);
    r = reach_switched("another credit", r, &g, 3, 5, 0, 0);
    check(r.charges[0] == 3 && r.charges[1] == NONE, "another credit");
    r = reach_switched("another bound", r, &g, 3, 9, 0, 1);
    check(r.charges[0] == 9 && r.charges[1] == 4, "another bound");
    g.start = 1;
    r = reach_switched("another start mode", r, &g, 2, 9, 2, 0);
    check(r.charges[0] == NONE && r.charges[1] == 2, "another start mode");
    r = reach_switched("another model", r, &e, 10, 10, 1, 0);
    check(r.charges[0] == 10 && r.charges[1] == 10, "another model");
    e.n = 1;
    e.sources = e.targets = zeros;
    r = reach_switched("fewer modes", r, &e, 1, 10, 1, 1);
    check(r.charges[0] == 10 && r.charges[1] == NONE, "fewer modes");
}

/* Each of 255 arcs of a ring off and on again: the modes behind it are unreached, and then the reach is what it was. */
void test_reach_each(void)
{
    struct lists lists;
    struct model m;
    struct chargeplan_reach first, r;
    uint32_t a, mode;

    for (a = 0; a < ARCS; a++) {
        struct arc arc = {a % MODES, (a % MODES + 1) % MODES, a < MODES ? 0 : 5, a < MODES ? 1 : 0, 0, 0};

        put(&lists, a, arc);
    }
    m = listed(MODES, 0, &lists, ARCS);
    first = reach_started("a ring", &m, 0, 40);
    for (a = 0; a < ARCS; a++) {
        r = reach_switched("one arc of a ring is off", first, &m, 0, 40, a, 0);
        for (mode = 0; mode < MODES; mode++)
            check(r.charges[mode] <= first.charges[mode] || r.charges[mode] == NONE, "no charge is greater");
        check(a >= MODES || same_reach(r, first) == 0, "one arc of a ring is off");
        r = reach_switched("it is on again", r, &m, 0, 40, a, 1);
        check_same_reach("it is on again", r, first);
    }
}

/* All arcs off, one after the other, and on again in another order: after each, the reach of the arcs then on. */
void test_reach_all(void)
{
    struct lists lists;
    struct model m = chain(&lists, 20);
    struct chargeplan_reach first = reach_started("a chain", &m, 0, 20), r = first;
    uint32_t arcs = (uint32_t)m.sources_length, i;

    for (i = 0; i < arcs; i++)
        r = reach_switched("one arc more is off", r, &m, 0, 20, arcs - 1 - i, 0);
    m.switches = all_off;
    check(r.charges[0] == 0 && r.charges[1] == NONE, "all arcs are off");
    check_same_reach("bits at or above m are kept", reach_switched("one on", r, &m, 0, 20, 0, 1), reach_switched("on", r, &m, 0, 20, 0, 9));
    for (i = 0; i < arcs; i++)
        r = reach_switched("one arc more is on", r, &m, 0, 20, i * 2 % arcs, 1);
    check_same_reach("all arcs are on again", r, first);
}
