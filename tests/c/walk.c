/* The walk of a plan. What judging refuses, the walk refuses too: that is in the tests of judging. */
#include "calls.h"

/* Example M, and other allowances. */
void test_walk(void)
{
    static const uint8_t plan[] = {0, 0, 0, 0, 0, 1, 2, 2, 2};
    struct model m = model_g();

    walked("M: allowance 7", &m, 0, 5, 6, 1, plan, 7, 0, 7, met(7));
    walked("M: allowance 6", &m, 0, 5, 6, 1, plan, 7, 0, 6, spent(6));
    walked("allowance 8", &m, 0, 5, 6, 1, plan, 7, 0, 8, met(7));
    walked("allowance 65,535", &m, 0, 5, 6, 1, plan, 7, 0, UINT16_MAX, met(7));
    walked("allowance 256", &m, 0, 5, 6, 1, plan, 7, 0, 256, met(7));
    walked("allowance 1", &m, 0, 5, 6, 1, plan, 7, 0, 1, spent(1));
    walked("allowance 0", &m, 0, 5, 6, 1, plan, 7, 0, 0, spent(0));
    walked("more than one arc meets the colour", &m, 0, 5, 6, 3, plan, 9, 0, UINT16_MAX, met(7));
    walked("the colour is met in the prefix", &m, 0, 5, 8, 1, plan, 9, 0, UINT16_MAX, met(7));
    walked("the colour is met in the prefix, allowance 7", &m, 0, 5, 8, 1, plan, 9, 0, 7, met(7));
    walked("the colour is not yet met, allowance 6", &m, 0, 5, 8, 1, plan, 9, 0, 6, spent(6));
}

/* Each of several colours, on the first arc, in the prefix and in the cycle. */
void test_walk_colours(void)
{
    static const uint8_t plan[] = {1, 1, 0, 1, 0}, four[] = {1, 2, 4, 8, 9}, round[] = {0, 1, 2, 3}, back[] = {4, 3, 2, 1};
    struct model m = model_j(), f = model(1, 4, 5, zeros, zeros, nothing, nothing, four);
    uint32_t j;

    walked("J: on the first arc", &m, 0, 2, 0, 2, plan + 3, 2, 1, 9, met(1));
    walked("J: on the last arc of the cycle", &m, 0, 2, 0, 2, plan + 3, 2, 0, 9, met(2));
    walked("J: on the first arc of the prefix", &m, 0, 2, 3, 2, plan, 5, 1, 9, met(1));
    walked("J: on the last arc of the prefix", &m, 0, 2, 3, 2, plan, 5, 0, 9, met(3));
    walked("J: the first arc, allowance 1", &m, 0, 2, 3, 2, plan, 5, 1, 1, met(1));
    walked("J: the first arc, allowance 0", &m, 0, 2, 3, 2, plan, 5, 1, 0, spent(0));
    for (j = 0; j < 4; j++) {
        walked("four colours", &f, 0, 0, 0, 4, round, 4, j, UINT16_MAX, met(j + 1));
        walked("four colours, all but the last step", &f, 0, 0, 0, 4, round, 4, j, (uint16_t)j, spent(j));
    }
    walked("an arc with two colours, the lower", &f, 0, 0, 0, 4, back, 4, 0, UINT16_MAX, met(1));
    walked("an arc with two colours, the higher", &f, 0, 0, 0, 4, back, 4, 3, UINT16_MAX, met(1));
    walked("an arc with two other colours", &f, 0, 0, 0, 4, back, 4, 1, UINT16_MAX, met(4));
}

/* 18; `judged` has it after every refusal of judging. */
void test_no_such_colour(void)
{
    static const uint32_t colours[] = {2, 3, 4, 5, 7, 8, 31, 32, 256, 257, 65536, 65537, UINT32_MAX};
    static const uint8_t good[] = {1, 0}, low[] = {0, 1}, misses[] = {1}, other[] = {2};
    struct model m = model_j(), none = model_a();
    size_t i;

    for (i = 0; i < sizeof colours / sizeof colours[0]; i++) {
        uint32_t j = colours[i];

        walked("18", &m, 0, 2, 0, 2, good, 2, j, UINT16_MAX, walk_refused(CHARGEPLAN_NO_SUCH_COLOUR, 0));
        walked("18: allowance 0", &m, 0, 2, 0, 2, good, 2, j, 0, walk_refused(CHARGEPLAN_NO_SUCH_COLOUR, 0));
        walked("6 before 18", &m, 3, 2, 0, 2, good, 2, j, 9, walk_refused(CHARGEPLAN_LEVELS, 0));
        walked("11 before 18", &m, 0, 2, 0, 1, good, 2, j, 9, walk_refused(CHARGEPLAN_PLAN_LENGTH, 0));
        walked("12 before 18", &m, 0, 2, 0, 1, other, 1, j, 9, walk_refused(CHARGEPLAN_ARC_NUMBER, 0));
        walked("15 before 18", &m, 0, 2, 0, 2, low, 2, j, 9, walk_refused(CHARGEPLAN_IMPOSSIBLE_STEP, 0));
        walked("17 before 18", &m, 0, 2, 0, 1, misses, 1, j, 9, walk_refused(CHARGEPLAN_MISSING_COLOUR, 0));
    }
    walked("18: no colours", &none, 0, 0, 0, 1, zeros, 1, 0, 9, walk_refused(CHARGEPLAN_NO_SUCH_COLOUR, 0));
    walked("no 18 below k", &m, 0, 2, 0, 2, good, 2, 1, 9, met(1));
}

/* The longest plans: the colour stands on the last arc. */
void test_long_walks(void)
{
    enum { MOST = CHARGEPLAN_PLAN_MOST };
    static uint8_t plan[MOST + 1];
    static const uint8_t second[] = {0, 1};
    struct model m = model(1, 1, 2, zeros, zeros, nothing, nothing, second);

    plan[MOST - 1] = 1;
    walked("a cycle of 65,535, met at its end", &m, 0, 0, 0, MOST, plan, MOST, 0, MOST, met(MOST));
    walked("one step less", &m, 0, 0, 0, MOST, plan, MOST, 0, MOST - 1, spent(MOST - 1));
    walked("a prefix of 65,534, met in the cycle", &m, 0, 0, MOST - 1, 1, plan, MOST, 0, MOST, met(MOST));
    walked("one step less", &m, 0, 0, MOST - 1, 1, plan, MOST, 0, MOST - 1, spent(MOST - 1));
    walked("256 steps", &m, 0, 0, 0, MOST, plan, MOST, 0, 256, spent(256));
    walked("11: 65,536 arcs", &m, 0, 0, 0, MOST + 1, plan, MOST + 1, 0, MOST, walk_refused(CHARGEPLAN_PLAN_LENGTH, 0));
    plan[300] = 1;
    walked("met at step 301", &m, 0, 0, MOST - 1, 1, plan, MOST, 0, MOST, met(301));
}
