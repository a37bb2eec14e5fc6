#include "calls.h"

#include <string.h>

/* 11 to 14. */
void test_shape(void)
{
    static const uint8_t plan[] = {0, 0, 0, 0, 0, 1, 2}, three[] = {0, 3, 3}, twelve[] = {2, 0, 3}, thirteen[] = {0, 2, 2},
                         open[] = {0, 1}, beyond[] = {255};
    struct model m = model_g(), none = without_arcs(1, 0);

    judged("11: q 0", &m, 0, 5, 7, 0, plan, 7, CHARGEPLAN_PLAN_LENGTH, 0);
    judged("11: one more", &m, 0, 5, 6, 2, plan, 7, CHARGEPLAN_PLAN_LENGTH, 0);
    judged("11: one less", &m, 0, 5, 5, 1, plan, 7, CHARGEPLAN_PLAN_LENGTH, 0);
    judged("11: a sum that wraps to the length", &m, 0, 5, UINT32_MAX, 8, plan, 7, CHARGEPLAN_PLAN_LENGTH, 0);
    judged("11: p is not cut to 16 bits", &m, 0, 5, 65536 + 6, 1, plan, 7, CHARGEPLAN_PLAN_LENGTH, 0);
    judged("11: q is not cut to 16 bits", &m, 0, 5, 6, 65536 + 1, plan, 7, CHARGEPLAN_PLAN_LENGTH, 0);
    judged("11: no plan", &m, 0, 5, 0, 0, NULL, 0, CHARGEPLAN_PLAN_LENGTH, 0);
    judged("11: no plan, q 1", &m, 0, 5, 0, 1, NULL, 0, CHARGEPLAN_PLAN_LENGTH, 0);
    judged("12: arc m", &m, 0, 5, 1, 2, three, 3, CHARGEPLAN_ARC_NUMBER, 1);
    judged("12 before 13", &m, 0, 5, 1, 2, twelve, 3, CHARGEPLAN_ARC_NUMBER, 2);
    judged("12: no arcs", &none, 0, 5, 0, 1, beyond, 1, CHARGEPLAN_ARC_NUMBER, 0);
    judged("13: first position", &m, 0, 5, 1, 2, thirteen, 3, CHARGEPLAN_OTHER_MODE, 1);
    judged("13: not from the start mode", &m, 0, 5, 0, 1, thirteen + 1, 1, CHARGEPLAN_OTHER_MODE, 0);
    judged("14: open cycle", &m, 5, 5, 0, 2, open, 2, CHARGEPLAN_OPEN_CYCLE, 0);
    judged("14: open cycle after a prefix", &m, 5, 5, 1, 1, open, 2, CHARGEPLAN_OPEN_CYCLE, 0);
}

/* 11 to 13 of long plans, and 15 in the second round of a long cycle. */
void test_long(void)
{
    enum { MOST = CHARGEPLAN_PLAN_MOST };
    static uint8_t plan[MOST + 1];
    static const uint16_t draws[] = {1, 0, 0}, gains[] = {0, 0, 1};
    struct model a = model_a(), e = model_e(), m = model(1, 0, 3, zeros, zeros, draws, gains, zeros);
    size_t i;

    judged("65,535 arcs", &a, 0, 0, 0, MOST, plan, MOST, CHARGEPLAN_YES, 0);
    judged("a prefix of 65,534", &a, 0, 0, MOST - 1, 1, plan, MOST, CHARGEPLAN_YES, 0);
    judged("11: 65,536 arcs", &a, 0, 0, 0, MOST + 1, plan, MOST + 1, CHARGEPLAN_PLAN_LENGTH, 0);
    judged("11: 65,536 arcs, a prefix among them", &a, 0, 0, MOST, 1, plan, MOST + 1, CHARGEPLAN_PLAN_LENGTH, 0);
    plan[MOST - 1] = 1;
    judged("12: last position", &a, 0, 0, 0, MOST, plan, MOST, CHARGEPLAN_ARC_NUMBER, MOST - 1);
    memset(plan, 1, sizeof plan);
    plan[MOST - 1] = 0;
    judged("15: last step of the second round", &m, 1, 1, 0, MOST, plan, MOST, CHARGEPLAN_IMPOSSIBLE_STEP, 2 * MOST - 1);
    judged("16: a long cycle falls", &m, 2, 2, 0, MOST, plan, MOST, CHARGEPLAN_FALLING_CYCLE, 0);
    for (i = 0; i < MOST; i++)
        plan[i] = (uint8_t)(i % 2);
    judged("arcs that take turns", &e, 10, 10, 0, MOST - 1, plan, MOST - 1, CHARGEPLAN_YES, 0);
    plan[40000] = 1;
    judged("13: a late position", &e, 10, 10, 0, MOST - 1, plan, MOST - 1, CHARGEPLAN_OTHER_MODE, 40000);
}

/* 15 to 17. */
void test_charges(void)
{
    static const uint8_t arcs01[] = {0, 1}, arcs001[] = {0, 0, 1}, arcs02[] = {0, 2}, arc0[] = {0}, arc1[] = {1}, arc2[] = {2};
    static const uint16_t draw_one[] = {0, 1, 0}, gain_one[] = {1, 0, 0}, draw_most[] = {0, CHARGEPLAN_DRAW_MOST, 0},
                          gain_most[] = {CHARGEPLAN_GAIN_MOST, 0, 0};
    static const uint8_t high[] = {8, 4, 0}, low[] = {2, 1, 1};
    struct model b = model_b(), x = model(1, 0, 3, zeros, zeros, draw_most, gain_most, zeros),
                 y = model(1, 4, 3, zeros, zeros, draw_most, gain_most, high),
                 z = model(1, 2, 3, zeros, zeros, draw_one, gain_one, low);

    judged("15: first step of the prefix", &b, 0, 5, 1, 1, zeros, 2, CHARGEPLAN_IMPOSSIBLE_STEP, 0);
    judged("15: second step of the prefix", &b, 1, 5, 2, 1, zeros, 3, CHARGEPLAN_IMPOSSIBLE_STEP, 1);
    judged("15: first round", &b, 1, 5, 1, 1, zeros, 2, CHARGEPLAN_IMPOSSIBLE_STEP, 1);
    judged("15: second round", &b, 2, 5, 1, 1, zeros, 2, CHARGEPLAN_IMPOSSIBLE_STEP, 2);
    judged("16: each round ends lower", &b, 3, 5, 1, 1, zeros, 2, CHARGEPLAN_FALLING_CYCLE, 0);
    judged("exactly 0", &x, 0, 8191, 0, 1, arc2, 1, CHARGEPLAN_YES, 0);
    judged("the greatest gain is cut, the greatest draw is impossible", &x, 0, 8191, 0, 2, arcs01, 2, CHARGEPLAN_IMPOSSIBLE_STEP, 1);
    judged("gain cut at the bound", &x, 8191, 8191, 0, 1, arc0, 1, CHARGEPLAN_YES, 0);
    judged("b 0", &x, 0, 0, 0, 1, arc0, 1, CHARGEPLAN_YES, 0);
    judged("15: greatest draw", &x, 8191, 8191, 2, 1, arcs001, 3, CHARGEPLAN_IMPOSSIBLE_STEP, 2);
    judged("17: the lowest of four", &y, 0, 5, 0, 1, arc2, 1, CHARGEPLAN_MISSING_COLOUR, 0);
    judged("17: the highest is met", &y, 0, 5, 0, 1, arc0, 1, CHARGEPLAN_MISSING_COLOUR, 0);
    judged("17: the second is missing", &z, 0, 5, 0, 1, arc2, 1, CHARGEPLAN_MISSING_COLOUR, 1);
    judged("17: colours of the prefix do not count", &z, 0, 5, 1, 1, arcs02, 2, CHARGEPLAN_MISSING_COLOUR, 1);
    judged("16 before 17", &z, 5, 5, 0, 1, arc1, 1, CHARGEPLAN_FALLING_CYCLE, 0);
}

/* Models without a plan, or with one that is easy to miss. */
void test_search(void)
{
    static const uint16_t ones[] = {1, 1, 1};
    struct model none = without_arcs(1, 0), j = model_j(), up = model(2, 0, 3, g_sources, g_targets, nothing, ones, zeros),
                 down = model(2, 0, 3, g_sources, g_targets, ones, nothing, zeros), e = model_e(),
                 twins = model(1, 0, 2, zeros, zeros, nothing, nothing, zeros);

    refused("no arcs", &none, 0, 5, CHARGEPLAN_NO_PLAN, 0);
    none.n = 64;
    refused("64 modes and no arcs", &none, 0, 127, CHARGEPLAN_NO_PLAN, 0);
    found("J has no simple accepting loop", &j, 0, 2);
    refused("J with too small a bound", &j, 1, 1, CHARGEPLAN_NO_PLAN, 0);
    found("rising loops", &up, 0, 5);
    refused("falling loops", &down, 5, 5, CHARGEPLAN_NO_PLAN, 0);
    found("E: the first round ends lower", &e, 10, 10);
    refused("F: too small a bound", &e, 2, 2, CHARGEPLAN_NO_PLAN, 0);
    found("two equal arcs", &twins, 0, 0);
}

/* Plans that must be long: their lengths do not fit a byte. */
void test_long_plans(void)
{
    static const uint16_t draws[] = {0, 300, 0}, gains[] = {1, 0, 0};
    static const uint8_t second[] = {0, 1};
    struct model cycle = model(1, 1, 2, zeros, zeros, draws, gains, second),
                 prefix = model(2, 1, 3, g_sources, g_targets, draws, gains, g_colours);

    found("a cycle of 301 arcs or more", &cycle, 0, 300);
    refused("the same with a bound one lower", &cycle, 0, 299, CHARGEPLAN_NO_PLAN, 0);
    found("a prefix of 301 arcs or more", &prefix, 0, 300);
    refused("the same with a bound one lower", &prefix, 0, 299, CHARGEPLAN_NO_PLAN, 0);
}

/* A ring of as many modes as there may be, with the four colours on four of its arcs; each arc but one gains 1. */
void test_ring(void)
{
    enum { MODES = CHARGEPLAN_MODES_MOST };
    static uint8_t sources[MODES], targets[MODES], colours[MODES];
    static uint16_t draws[MODES], gains[MODES];
    struct model m = model(MODES, CHARGEPLAN_COLOURS_MOST, MODES, sources, targets, draws, gains, colours);
    uint32_t i;

    for (i = 0; i < MODES; i++) {
        sources[i] = (uint8_t)i;
        targets[i] = (uint8_t)((i + 1) % MODES);
        gains[i] = 1;
    }
    for (i = 0; i < CHARGEPLAN_COLOURS_MOST; i++)
        colours[13 * (i + 1)] = (uint8_t)(1u << i);
    gains[MODES - 1] = 0;
    draws[MODES - 1] = MODES - 1;
    found("a ring of 64 modes", &m, 0, 127);
    found("the same where the bound is just high enough", &m, 0, MODES - 1);
    refused("and where it is one too low", &m, 0, MODES - 2, CHARGEPLAN_NO_PLAN, 0);
}
