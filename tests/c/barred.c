/*
 * Barred colours (document 02, Ask 6) in judging and the walk: 24 and its position, 17 that passes over them, the prefix that is free.
 * Search is in barred_search.c, a joined model in join_plans.c.
 */
#include "calls.h"

#include <string.h>

struct model every_colouring(struct lists *to, uint32_t k)
{
    uint32_t a;

    for (a = 0; a < 1u << k; a++) {
        struct arc arc = {0, 0, 0, 0, a, 0};

        put(to, a, arc);
    }
    return listed(1, k, to, (size_t)1 << k);
}

/* Judging of p + q arcs with these barred colours, against what it should answer; and the walk, which is refused likewise. */
static void judged_barred(const char *what, struct model m, uint32_t barred, uint32_t p, uint32_t q, const uint8_t *plan, uint32_t number,
    uint32_t detail)
{
    m.barred = (uint8_t)barred;
    judged(what, &m, 5, 5, p, q, plan, (size_t)p + q, number, detail);
}

/* 24 and its detail. */
static void test_positions(void)
{
    static const uint8_t last[] = {14, 0, 1}, twice[] = {0, 1, 1}, behind[] = {0, 0, 14, 1}, before[] = {1, 3, 14}, both[] = {1, 14, 1},
                         higher_first[] = {12, 2, 1}, all[] = {15};
    struct lists lists;
    struct model m = every_colouring(&lists, 4);

    judged_barred("24: the only arc", m, 1, 0, 1, last + 2, CHARGEPLAN_BARRED_COLOUR, 0);
    judged_barred("24: the last arc of the cycle", m, 1, 0, 3, last, CHARGEPLAN_BARRED_COLOUR, 2);
    judged_barred("24: the first of two", m, 1, 0, 3, twice, CHARGEPLAN_BARRED_COLOUR, 1);
    judged_barred("24: the prefix is counted", m, 1, 2, 2, behind, CHARGEPLAN_BARRED_COLOUR, 3);
    judged_barred("24: a longer prefix", m, 1, 3, 1, behind, CHARGEPLAN_BARRED_COLOUR, 3);
    judged_barred("barred colours of the prefix", m, 1, 2, 1, before, CHARGEPLAN_YES, 0);
    judged_barred("24: of the cycle, and not of the prefix", m, 1, 1, 2, both, CHARGEPLAN_BARRED_COLOUR, 2);
    judged_barred("24: the first arc, and not the lowest colour", m, 3, 0, 3, higher_first, CHARGEPLAN_BARRED_COLOUR, 1);
    judged_barred("24: one colour of four", m, 4, 0, 1, all, CHARGEPLAN_BARRED_COLOUR, 0);
    judged_barred("the same with nothing barred", m, 0, 0, 1, all, CHARGEPLAN_YES, 0);
}

/* 17 passes over barred colours. */
static void test_passed_over(void)
{
    static const uint8_t none[] = {0, 0, 8}, second[] = {2, 8}, lowest[] = {1}, low_three[] = {7}, all_then_none[] = {15, 0},
                         high_two[] = {12};
    struct lists lists;
    struct model m = every_colouring(&lists, 4);

    judged_barred("17: the lowest is barred", m, 1, 0, 1, none, CHARGEPLAN_MISSING_COLOUR, 1);
    judged_barred("17: the two lowest are barred", m, 3, 0, 1, none, CHARGEPLAN_MISSING_COLOUR, 2);
    judged_barred("17: all but the highest are barred", m, 7, 0, 1, none, CHARGEPLAN_MISSING_COLOUR, 3);
    judged_barred("17: one between is barred", m, 2, 0, 1, lowest, CHARGEPLAN_MISSING_COLOUR, 2);
    judged_barred("17: colours of the prefix are not met", m, 1, 1, 1, all_then_none, CHARGEPLAN_MISSING_COLOUR, 1);
    judged_barred("all are barred, and met in the prefix", m, 15, 1, 1, all_then_none, CHARGEPLAN_YES, 0);
    judged_barred("all are barred, and none is met", m, 15, 0, 2, none, CHARGEPLAN_YES, 0);
    judged_barred("24: all are barred, and one is met", m, 15, 0, 3, none, CHARGEPLAN_BARRED_COLOUR, 2);
    judged_barred("all required ones are met", m, 5, 0, 2, second, CHARGEPLAN_YES, 0);
    judged_barred("the highest is barred", m, 8, 0, 1, low_three, CHARGEPLAN_YES, 0);
    judged_barred("17: nothing is barred", m, 0, 0, 1, low_three, CHARGEPLAN_MISSING_COLOUR, 3);
    judged_barred("17: nothing is barred, the lowest", m, 0, 0, 1, high_two, CHARGEPLAN_MISSING_COLOUR, 0);
}

void test_barred_colours(void)
{
    test_positions();
    test_passed_over();
}

/* A cycle of the arc with these colours, alone and behind an arc with all colours, by what the sets have in common. */
static void judged_set(const struct model *m, uint32_t barred, uint32_t colours)
{
    uint32_t all = (1u << m->k) - 1, missing = all & ~(colours | barred), number = CHARGEPLAN_YES, detail = 0, p;
    uint8_t plan[] = {(uint8_t)all, (uint8_t)colours};

    if (missing != 0) {
        number = CHARGEPLAN_MISSING_COLOUR;
        while ((missing >> detail & 1) == 0)
            detail++;
    }
    for (p = 0; p <= 1; p++)
        if ((colours & barred) != 0)
            judged_barred("24 by every byte", *m, barred, p, 1, plan + 1 - p, CHARGEPLAN_BARRED_COLOUR, p);
        else
            judged_barred("17 by every byte", *m, barred, p, 1, plan + 1 - p, number, detail);
}

/* Every byte and every set of colours, for each k: bits at or above k are ignored. */
void test_barred_bytes(void)
{
    struct lists lists;
    uint32_t k, barred, colours;

    for (k = 0; k <= CHARGEPLAN_COLOURS_MOST; k++) {
        struct model m = every_colouring(&lists, k);

        for (barred = 0; barred <= UINT8_MAX; barred++)
            for (colours = 0; colours < 1u << k; colours++)
                judged_set(&m, barred, colours);
    }
}

/* 24 comes after 16 and before 17. */
void test_barred_order(void)
{
    enum { DRAWS, GAINS, LEAVES, STAYS, PLAIN };
    static const uint8_t draws[] = {DRAWS, DRAWS}, gains[] = {GAINS}, open[] = {LEAVES, STAYS}, other[] = {DRAWS, STAYS},
                         number[] = {DRAWS, 5}, plain_first[] = {PLAIN, GAINS}, plain_last[] = {GAINS, PLAIN};
    static const struct arc arcs[] = {{0, 0, 1, 0, 1, 0}, {0, 0, 0, 1, 1, 0}, {0, 1, 0, 0, 1, 0}, {1, 1, 0, 0, 1, 0}, {0, 0, 0, 0, 0, 0}};
    struct lists lists;
    struct model m = of_arcs(&lists, 2, 2, arcs, 5);

    m.barred = 1;
    judged("6 before 24", &m, 6, 5, 0, 1, gains, 1, CHARGEPLAN_LEVELS, 0);
    judged("11 before 24", &m, 5, 5, 1, 1, gains, 1, CHARGEPLAN_PLAN_LENGTH, 0);
    judged("12 before 24", &m, 5, 5, 0, 2, number, 2, CHARGEPLAN_ARC_NUMBER, 1);
    judged("13 before 24", &m, 5, 5, 0, 2, other, 2, CHARGEPLAN_OTHER_MODE, 1);
    judged("14 before 24", &m, 5, 5, 0, 2, open, 2, CHARGEPLAN_OPEN_CYCLE, 0);
    judged("15 before 24", &m, 0, 5, 0, 1, draws, 1, CHARGEPLAN_IMPOSSIBLE_STEP, 0);
    judged("15 in the prefix before 24", &m, 0, 5, 1, 1, draws, 2, CHARGEPLAN_IMPOSSIBLE_STEP, 0);
    judged("15 in the second round before 24", &m, 1, 5, 0, 1, draws, 1, CHARGEPLAN_IMPOSSIBLE_STEP, 1);
    judged("16 before 24", &m, 5, 5, 0, 1, draws, 1, CHARGEPLAN_FALLING_CYCLE, 0);
    judged("24 before 17", &m, 0, 5, 0, 1, gains, 1, CHARGEPLAN_BARRED_COLOUR, 0);
    judged("24 before 17, a later arc", &m, 0, 5, 0, 2, plain_first, 2, CHARGEPLAN_BARRED_COLOUR, 1);
    judged("17, where the barred arc is in the prefix", &m, 5, 5, 1, 1, plain_last, 2, CHARGEPLAN_MISSING_COLOUR, 1);
    m.barred = 2;
    judged("24 of no arc: colour 0 is met, colour 1 is barred", &m, 0, 5, 0, 1, gains, 1, CHARGEPLAN_YES, 0);
    judged("17 of a lower colour than the barred one", &m, 0, 5, 0, 1, plain_first, 1, CHARGEPLAN_MISSING_COLOUR, 0);
    lists.colours[GAINS] = 2;
    judged("24 before 17 of a lower colour", &m, 0, 5, 0, 1, gains, 1, CHARGEPLAN_BARRED_COLOUR, 0);
}

/* The longest plans of arcs without a colour (0) and with a barred one (1). */
void test_barred_long(void)
{
    enum { MOST = CHARGEPLAN_PLAN_MOST, BEHIND = 30000, AT = 40000 };
    static uint8_t plan[MOST];
    struct lists lists;
    struct model m = every_colouring(&lists, 1);

    judged_barred("a cycle of 65,535 arcs", m, 1, 0, MOST, plan, CHARGEPLAN_YES, 0);
    plan[MOST - 1] = 1;
    judged_barred("24: the last of 65,535 arcs", m, 1, 0, MOST, plan, CHARGEPLAN_BARRED_COLOUR, MOST - 1);
    judged_barred("24: behind a prefix of 65,534", m, 1, MOST - 1, 1, plan, CHARGEPLAN_BARRED_COLOUR, MOST - 1);
    plan[AT] = 1;
    judged_barred("24: the first of two far behind", m, 1, BEHIND, MOST - BEHIND, plan, CHARGEPLAN_BARRED_COLOUR, AT);
    memset(plan, 1, BEHIND);
    judged_barred("24: behind a prefix of barred arcs", m, 1, BEHIND, MOST - BEHIND, plan, CHARGEPLAN_BARRED_COLOUR, AT);
    memset(plan, 1, MOST - 1);
    plan[MOST - 1] = 0;
    judged_barred("a prefix of 65,534 barred arcs", m, 1, MOST - 1, 1, plan, CHARGEPLAN_YES, 0);
    judged_barred("24: the last of them in the cycle", m, 1, MOST - 2, 2, plan, CHARGEPLAN_BARRED_COLOUR, MOST - 2);
}

/* The walk of p + q arcs with these barred colours. */
static void walked_barred(const char *what, struct model m, uint32_t barred, uint32_t p, uint32_t q, const uint8_t *plan, uint32_t j,
    uint16_t allowance, struct outcome expected)
{
    m.barred = (uint8_t)barred;
    walked(what, &m, 5, 5, p, q, plan, (size_t)p + q, j, allowance, expected);
}

/* The walk may be given a barred colour: it is met in the prefix or not at all. */
void test_barred_walk(void)
{
    static const uint8_t plan[] = {0, 9, 1, 6, 0, 8}, all_third[] = {0, 0, 15, 0}, both[] = {3};
    struct lists lists, of_two;
    struct model m = every_colouring(&lists, 4), two = every_colouring(&of_two, 2);
    uint32_t j;

    walked_barred("a barred colour, met in the prefix", m, 1, 3, 3, plan, 0, 9, met(2));
    walked_barred("a barred colour, exactly as far", m, 1, 3, 3, plan, 0, 2, met(2));
    walked_barred("a barred colour, one step less", m, 1, 3, 3, plan, 0, 1, spent(1));
    walked_barred("a barred colour, allowance 0", m, 1, 3, 3, plan, 0, 0, spent(0));
    walked_barred("a required colour, met in the prefix", m, 1, 3, 3, plan, 3, 9, met(2));
    walked_barred("a required colour, met in the cycle", m, 1, 3, 3, plan, 1, 9, met(4));
    walked_barred("a barred colour that no step meets", m, 1, 0, 3, plan + 3, 0, UINT16_MAX, spent(UINT16_MAX));
    walked_barred("the same for p + q steps", m, 1, 0, 3, plan + 3, 0, 3, spent(3));
    walked_barred("17 in the walk, for a barred colour", m, 1, 1, 2, plan + 3, 0, 9, walk_refused(CHARGEPLAN_MISSING_COLOUR, 1));
    walked_barred("24 in the walk", m, 1, 2, 4, plan, 0, 9, walk_refused(CHARGEPLAN_BARRED_COLOUR, 2));
    walked_barred("24 in the walk, another colour", m, 1, 2, 4, plan, 1, 9, walk_refused(CHARGEPLAN_BARRED_COLOUR, 2));
    walked_barred("24 in the walk, allowance 0", m, 1, 2, 4, plan, 0, 0, walk_refused(CHARGEPLAN_BARRED_COLOUR, 2));
    walked_barred("24 before 18", m, 1, 2, 4, plan, 4, 9, walk_refused(CHARGEPLAN_BARRED_COLOUR, 2));
    walked_barred("18 of no barred colour", m, 1, 3, 3, plan, 4, 9, walk_refused(CHARGEPLAN_NO_SUCH_COLOUR, 0));
    for (j = 0; j < 4; j++) {
        walked_barred("all are barred", m, 15, 0, 1, plan, j, 300, spent(300));
        walked_barred("all are barred, and met in the prefix", m, 15, 3, 1, all_third, j, 300, met(3));
        walked_barred("all are barred, and met in the cycle", m, 15, 2, 2, all_third, j, 300, walk_refused(CHARGEPLAN_BARRED_COLOUR, 2));
    }
    for (j = 2; j < 9; j++)
        walked_barred("18 of a bit at or above k", two, 0xfc, 0, 1, both, j, 9, walk_refused(CHARGEPLAN_NO_SUCH_COLOUR, 0));
}
