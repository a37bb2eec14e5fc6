/* The gauge: started, stepped, refused, and with a spill near 2^64. What 22 refuses is in mixed.c. */
#include "calls.h"

/* A gauge started with this credit makes these steps. It is handed back. */
static struct gauge followed(const char *what, const struct model *m, uint32_t c, uint32_t b, const struct stop *stops, size_t count)
{
    struct gauge g;
    size_t i;

    started(what, &g, m, c, b, CHARGEPLAN_YES, 0);
    for (i = 0; i < count; i++)
        moved(what, &g, m, b, stops[i]);
    return g;
}

/* A step of a gauge made by hand, which is refused; the gauge is as found. */
static void step_refused(const char *what, const struct model *m, uint32_t b, uint32_t mode, uint32_t charge, uint64_t spill,
    uint32_t arc, uint32_t number)
{
    struct gauge g = gauge_at(m, b, mode, charge, spill);

    stepped(what, &g, m, b, arc, number, 0);
}

/* A step of a gauge made by hand, which is made. */
static void step_made(const char *what, const struct model *m, uint32_t b, uint32_t mode, uint32_t charge, uint64_t spill,
    struct stop stop)
{
    struct gauge g = gauge_at(m, b, mode, charge, spill);

    moved(what, &g, m, b, stop);
}

/* Starting. All of 1 to 6 are in the tests of these numbers, for every call. */
void test_start(void)
{
    struct model m = model_g(), none = without_arcs(CHARGEPLAN_MODES_MOST, CHARGEPLAN_COLOURS_MOST);
    struct gauge g;

    followed("start", &m, 3, 5, NULL, 0);
    followed("start: credit 0", &m, 0, 5, NULL, 0);
    followed("start: credit and bound 0", &m, 0, 0, NULL, 0);
    followed("start: credit at the bound", &m, 5, 5, NULL, 0);
    followed("start: the greatest bound", &m, CHARGEPLAN_BOUND_MOST, CHARGEPLAN_BOUND_MOST, NULL, 0);
    m.start = 1;
    followed("start: another start mode", &m, 3, 5, NULL, 0);
    none.start = CHARGEPLAN_MODES_MOST - 1;
    followed("start: the last of 64 modes, no arcs, n * (b + 1) above 8,192", &none, 7, CHARGEPLAN_BOUND_MOST, NULL, 0);
    started("start: 6, start mode 1", &g, &m, 6, 5, CHARGEPLAN_LEVELS, 0);
}

/* Document 01's examples, with the charge and the spill after each step. */
void test_steps(void)
{
    static const struct stop a[] = {{0, 0, 0, 0}, {0, 0, 0, 0}}, d[] = {{0, 0, 0, 0}},
                             e[] = {{0, 1, 10, 3}, {1, 0, 7, 3}, {0, 1, 10, 3}, {1, 0, 7, 3}}, f[] = {{0, 1, 2, 3}},
                             i[] = {{0, 0, 1, 0}, {0, 0, 2, 0}, {0, 0, 3, 0}, {0, 0, 4, 0}, {0, 0, 5, 0}, {1, 1, 0, 0}, {2, 1, 0, 0}},
                             g[] = {{0, 0, 5, 0}, {0, 0, 5, 1}, {0, 0, 5, 2}, {1, 1, 0, 2}, {2, 1, 0, 2}},
                             j[] = {{1, 0, 2, 0}, {0, 0, 0, 0}, {1, 0, 2, 0}, {1, 0, 2, 2}, {1, 0, 2, 4}, {0, 0, 0, 4}};
    struct model model_of_a = model_a(), model_of_b = model_b(), model_of_e = model_e(), model_of_g = model_g(), model_of_j = model_j();
    struct gauge at;

    followed("A: no change", &model_of_a, 0, 0, a, 2);
    at = followed("D: exactly to 0", &model_of_b, 1, 1, d, 1);
    stepped("D: below 0", &at, &model_of_b, 1, 0, CHARGEPLAN_IMPOSSIBLE_STEP, 0);
    followed("E: 3 lost in the first round, nothing in the second", &model_of_e, 10, 10, e, 4);
    at = followed("F: one step", &model_of_e, 2, 2, f, 1);
    stepped("F: the second is below 0", &at, &model_of_e, 2, 1, CHARGEPLAN_IMPOSSIBLE_STEP, 0);
    check_gauge("F: the gauge after the refused step", at, gauge_at(&model_of_e, 2, 1, 2, 3));
    followed("I: exactly to the bound and to 0", &model_of_g, 0, 5, i, 7);
    followed("G: one above the bound", &model_of_g, 4, 5, g, 5);
    at = followed("J: each gain at the bound is lost", &model_of_j, 0, 2, j, 6);
    stepped("K: below 0", &at, &model_of_j, 2, 0, CHARGEPLAN_IMPOSSIBLE_STEP, 0);
}

/* The greatest gain and draw, and those of the whole battery. */
void test_extreme_steps(void)
{
    static const struct stop empty[] = {{0, 0, 8191, 1809}, {0, 0, 8191, 11809}, {2, 0, 8191, 11809}},
                             none[] = {{0, 0, 0, 10000}, {2, 0, 0, 10000}, {0, 0, 0, 20000}};
    static const uint16_t most_draws[] = {0, CHARGEPLAN_DRAW_MOST, 0}, most_gains[] = {CHARGEPLAN_GAIN_MOST, 0, 0},
                          whole_draws[] = {8191, 0, 0, 8190}, whole_gains[] = {0, 8191, 8192, 0};
    static const struct stop there[] = {{0, 0, 0, 0}, {1, 0, 8191, 0}, {0, 0, 0, 0}, {2, 0, 8191, 1}, {3, 0, 1, 1}, {1, 0, 8191, 2}};
    struct model x = model(1, 0, 3, zeros, zeros, most_draws, most_gains, zeros),
                 y = model(1, 0, 4, zeros, zeros, whole_draws, whole_gains, zeros);
    struct gauge at = followed("the greatest gain", &x, 0, 8191, empty, 3);

    stepped("the greatest draw", &at, &x, 8191, 1, CHARGEPLAN_IMPOSSIBLE_STEP, 0);
    check_gauge("the gauge after the greatest draw", at, gauge_at(&x, 8191, 0, 8191, 11809));
    at = followed("b 0: the whole gain is lost", &x, 0, 0, none, 3);
    stepped("b 0: the greatest draw", &at, &x, 0, 1, CHARGEPLAN_IMPOSSIBLE_STEP, 0);
    followed("the whole battery", &y, 8191, 8191, there, 6);
    at = followed("one less than the whole draw", &y, 8190, 8191, NULL, 0);
    stepped("one less than the whole draw", &at, &y, 8191, 0, CHARGEPLAN_IMPOSSIBLE_STEP, 0);
}

/* 6, 12, 13 and 15 of a step, and their order. */
void test_step_refusals(void)
{
    static const uint32_t arcs[] = {3, 4, 255, 256, 257, 65536, UINT32_MAX}, modes[] = {1, 2, 3, 255},
                          charges[] = {6, 8191, 8192, UINT16_MAX};
    struct model m = model_g(), none = without_arcs(1, 0);
    struct stop there = {1, 1, 0, 9};
    size_t i;

    for (i = 0; i < sizeof charges / sizeof charges[0]; i++) {
        step_refused("6: the gauge's own charge", &m, 5, 0, charges[i], 9, 2, CHARGEPLAN_LEVELS);
        step_refused("6 before 12", &m, 5, 255, charges[i], UINT64_MAX, 3, CHARGEPLAN_LEVELS);
    }
    step_refused("6: the bound", &m, CHARGEPLAN_BOUND_MOST + 1, 0, 0, 9, 0, CHARGEPLAN_LEVELS);
    for (i = 0; i < sizeof arcs / sizeof arcs[0]; i++) {
        step_refused("12: arc", &m, 5, 0, 5, 9, arcs[i], CHARGEPLAN_ARC_NUMBER);
        step_refused("12 before 13", &m, 5, 2, 5, 9, arcs[i], CHARGEPLAN_ARC_NUMBER);
    }
    step_refused("12: no arcs", &none, 5, 0, 5, 9, 0, CHARGEPLAN_ARC_NUMBER);
    for (i = 0; i < sizeof modes / sizeof modes[0]; i++) {
        step_refused("13: mode", &m, 5, modes[i], 5, 9, 0, CHARGEPLAN_OTHER_MODE);
        step_refused("13 before 15", &m, 5, modes[i], 0, 9, 1, CHARGEPLAN_OTHER_MODE);
    }
    step_refused("13: from mode 0", &m, 5, 0, 5, 9, 2, CHARGEPLAN_OTHER_MODE);
    for (i = 0; i < 5; i++)
        step_refused("15: below 0", &m, 5, 0, (uint32_t)i, 9, 1, CHARGEPLAN_IMPOSSIBLE_STEP);
    step_made("exactly to 0", &m, 5, 0, 5, 9, there);
    m.start = 1;
    step_made("the start mode is another than the gauge's", &m, 5, 0, 5, 9, there);
}

void total_at_bound(const char *what, uint32_t draw, uint32_t gain, uint64_t room)
{
    uint16_t d = (uint16_t)draw, g = (uint16_t)gain, draws[3] = {d, d, d}, gains[3] = {g, g, g};
    struct model m = model(2, 0, 3, g_sources, g_targets, draws, gains, zeros);
    uint64_t lost = gain - draw, spill = UINT64_MAX - room;
    struct stop stop = {1, 1, 7, spill + lost};

    if (lost <= room)
        step_made(what, &m, 7, 0, 7, spill, stop);
    else
        step_refused(what, &m, 7, 0, 7, spill, 1, CHARGEPLAN_IMPOSSIBLE_STEP);
    step_refused("12 before 15 by the total", &m, 7, 0, 7, spill, 3, CHARGEPLAN_ARC_NUMBER);
    step_refused("13 before 15 by the total", &m, 7, 1, 7, spill, 0, CHARGEPLAN_OTHER_MODE);
}

/* 15 where the total would pass 64 bits. */
void test_totals(void)
{
    static const uint16_t gains[] = {1, 2, 255, 256, CHARGEPLAN_GAIN_MOST};
    static const struct stop down = {1, 0, 0, UINT64_MAX}, up = {0, 0, 7, UINT64_MAX}, flat_on = {2, 0, 7, UINT64_MAX};
    static const uint16_t draw_seven[] = {0, 7, 0}, gain_five[] = {5, 0, 0};
    struct model m = model(1, 0, 3, zeros, zeros, draw_seven, gain_five, zeros);
    size_t i;

    for (i = 0; i < sizeof gains / sizeof gains[0]; i++) {
        uint64_t lost = gains[i];

        total_at_bound("the total comes to 2^64 - 1", 0, gains[i], lost);
        total_at_bound("15: the total would come to 2^64", 0, gains[i], lost - 1);
        total_at_bound("15: no room", 0, gains[i], 0);
        total_at_bound("the total comes to 2^64 - 2", 0, gains[i], lost + 1);
        total_at_bound("the total passes 32 bits", 0, gains[i], UINT64_MAX - UINT32_MAX);
        total_at_bound("the total passes 63 bits", 0, gains[i], UINT64_MAX - INT64_MAX);
    }
    total_at_bound("nothing is lost", 0, 0, 0);
    step_made("full total: a draw", &m, 7, 0, 7, UINT64_MAX, down);
    step_made("full total: a gain to the bound", &m, 7, 0, 2, UINT64_MAX, up);
    step_made("full total: no change at the bound", &m, 7, 0, 7, UINT64_MAX, flat_on);
    step_refused("full total: one above the bound", &m, 7, 0, 3, UINT64_MAX, 0, CHARGEPLAN_IMPOSSIBLE_STEP);
    step_refused("full total: below 0", &m, 7, 0, 6, UINT64_MAX, 1, CHARGEPLAN_IMPOSSIBLE_STEP);
}
