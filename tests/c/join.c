/* The join: pairs by hand, models without arcs, and the refusals 1 to 5 of knee and habit. 23 is in join_sizes.c. */
#include "joins.h"

/* What is joined: the numbers, and arc by arc. */
static void joined_exactly(const char *what, const struct model *knee, const struct model *habit, struct reading expected,
    const struct arc *arcs)
{
    struct lists lists;
    struct reading r = join_models(what, knee, habit, equal_rooms(CHARGEPLAN_ARCS_MOST), &lists);
    uint32_t a;

    check_filled(what, r, expected);
    for (a = 0; a < r.m && a < expected.m; a++)
        check(lists.sources[a] == arcs[a].source && lists.targets[a] == arcs[a].target && lists.draws[a] == arcs[a].draw
                && lists.gains[a] == arcs[a].gain && lists.colours[a] == arcs[a].colours && lists.actions[a] == arcs[a].action, what);
}

/* A knee of two modes and one colour, and a habit of three modes and two colours, in these lists. */
static struct model knee_of_two(struct lists *to)
{
    static const struct arc arcs[] = {{0, 1, 3, 0, 0, 2}, {1, 0, 0, 5, 1, 7}, {1, 1, 1, 1, 0, 2}, {0, 0, 9, 9, 1, 0}};
    struct model m = of_arcs(to, 2, 1, arcs, 4);

    m.start = 1;
    return m;
}

static struct model habit_of_three(struct lists *to)
{
    static const struct arc arcs[] = {{2, 0, 10, 20, 2, 7}, {0, 1, 0, 40, 0, 2}, {1, 2, 50, 0, 1, 2}, {2, 2, 0, 0, 3, 15}};
    struct model m = of_arcs(to, 3, 2, arcs, 4);

    m.start = 1;
    return m;
}

/* The example of docs/C-API.md. */
static void test_example(void)
{
    static const struct arc of_knee[] = {{0, 1, 4, 0, 1, 1}, {1, 0, 1, 0, 0, 3}, {1, 1, 7, 0, 1, 1}},
                            of_habit[] = {{2, 0, 0, 0, 1, 3}, {0, 2, 1, 0, 0, 1}, {1, 0, 0, 9, 0, 2}},
                            arcs[] = {{0, 5, 5, 0, 1, 1}, {5, 0, 1, 0, 2, 3}, {3, 5, 8, 0, 1, 1}};
    static const struct reading numbers = {0, 0, 6, 1, 2, 3};
    struct lists lists, other_lists;
    struct model knee = of_arcs(&lists, 2, 1, of_knee, 3), habit = of_arcs(&other_lists, 3, 1, of_habit, 3);

    habit.start = 1;
    joined_exactly("the example of docs/C-API.md", &knee, &habit, numbers, arcs);
}

/* Each arc of the knee in turn with the arcs of the habit that have its action; knee and habit exchanged give another order. */
static void test_by_hand(void)
{
    static const struct reading numbers = {0, 0, 6, 1 * 3 + 1, 3, 5}, exchanged = {0, 0, 6, 1 * 2 + 1, 3, 5};
    static const struct arc arcs[] = {
        {0 * 3 + 0, 1 * 3 + 1, 3 + 0, 0 + 40, 0, 2},           /* 0 and 1 */
        {0 * 3 + 1, 1 * 3 + 2, 3 + 50, 0 + 0, 0 | 1 << 1, 2},  /* 0 and 2 */
        {1 * 3 + 2, 0 * 3 + 0, 0 + 10, 5 + 20, 1 | 2 << 1, 7}, /* 1 and 0 */
        {1 * 3 + 0, 1 * 3 + 1, 1 + 0, 1 + 40, 0, 2},           /* 2 and 1 */
        {1 * 3 + 1, 1 * 3 + 2, 1 + 50, 1 + 0, 0 | 1 << 1, 2},  /* 2 and 2 */
    };
    static const struct arc back[] = {
        {2 * 2 + 1, 0 * 2 + 0, 10, 25, 2 | 1 << 2, 7}, /* 0 and 1 */
        {0 * 2 + 0, 1 * 2 + 1, 3, 40, 0, 2},           /* 1 and 0 */
        {0 * 2 + 1, 1 * 2 + 1, 1, 41, 0, 2},           /* 1 and 2 */
        {1 * 2 + 0, 2 * 2 + 1, 53, 0, 1, 2},           /* 2 and 0 */
        {1 * 2 + 1, 2 * 2 + 1, 51, 1, 1, 2},           /* 2 and 2 */
    };
    struct lists of_knee, of_habit;
    struct model knee = knee_of_two(&of_knee), habit = habit_of_three(&of_habit);

    joined_exactly("by hand", &knee, &habit, numbers, arcs);
    joined_exactly("by hand, exchanged", &habit, &knee, exchanged, back);
}

/* Every start mode of both. */
static void test_starts(void)
{
    struct lists of_knee, of_habit;
    struct model knee = knee_of_two(&of_knee), habit = habit_of_three(&of_habit);

    for (knee.start = 0; knee.start < knee.n; knee.start++)
        for (habit.start = 0; habit.start < habit.n; habit.start++)
            check(join_models("start modes", &knee, &habit, equal_rooms(5), NULL).start == 3 * knee.start + habit.start, "start modes");
}

/* Every action of two arcs: a pair exactly where they are equal. */
static void test_every_action(void)
{
    struct lists of_knee, of_habit;
    uint32_t i, j;

    for (i = 0; i <= CHARGEPLAN_ACTION_MOST; i++)
        for (j = 0; j <= CHARGEPLAN_ACTION_MOST; j++) {
            struct model knee = with_action(&of_knee, 1, i), habit = with_action(&of_habit, 1, j);
            struct reading expected = {0, 0, 1, 0, 0, i == j};
            struct arc arc = {0, 0, 0, 0, 0, i};

            joined_exactly("two arcs of any action", &knee, &habit, expected, &arc);
        }
}

/* Every byte of colours of both, for each k1 and k2 that go together. */
static void test_every_colour(void)
{
    struct lists of_knee, of_habit;
    struct model knee = with_action(&of_knee, 1, 3), habit = with_action(&of_habit, 1, 3);
    uint32_t x, y;

    for (knee.k = 0; knee.k <= CHARGEPLAN_COLOURS_MOST; knee.k++)
        for (habit.k = 0; knee.k + habit.k <= CHARGEPLAN_COLOURS_MOST; habit.k++)
            for (x = 0; x < 1u << knee.k; x++)
                for (y = 0; y < 1u << habit.k; y++) {
                    struct reading expected = {0, 0, 1, 0, knee.k + habit.k, 1};
                    struct arc arc = {0, 0, 0, 0, x + (y << knee.k), 3};

                    of_knee.colours[0] = (uint8_t)x;
                    of_habit.colours[0] = (uint8_t)y;
                    joined_exactly("colours of both", &knee, &habit, expected, &arc);
                }
}

/* One mode with a loop of every action that draws and gains nothing: joined with it a knee is as it was. */
static struct model any_habit(struct lists *to)
{
    struct model m = with_action(to, CHARGEPLAN_ACTION_MOST + 1, 0);
    uint32_t a;

    for (a = 0; a <= CHARGEPLAN_ACTION_MOST; a++)
        to->actions[a] = (uint8_t)(a * 7 % (CHARGEPLAN_ACTION_MOST + 1));
    return m;
}

static void test_any_habit(void)
{
    struct lists of_knee, of_habit, lists;
    struct model knee = knee_of_two(&of_knee), habit = any_habit(&of_habit), joined;
    struct reading expected = {0, 0, 2, 1, 1, 4};

    check_filled("a habit of every action", join_models("a habit of every action", &knee, &habit, equal_rooms(4), &lists), expected);
    joined = joined_model(expected, &lists);
    take_back(&knee, lend(&joined), "a habit of every action");
}

void test_join_pairs(void)
{
    test_by_hand();
    test_example();
    test_starts();
    test_every_action();
    test_every_colour();
    test_any_habit();
}

/* There are no joined arcs: n, start mode and k alone. Lists without places are enough. */
static void joined_empty(const char *what, const struct model *knee, const struct model *habit, struct reading expected)
{
    joined_exactly(what, knee, habit, expected, NULL);
    check_filled(what, join_models(what, knee, habit, equal_rooms(0), NULL), expected);
}

/* Models without arcs, and without equal actions. */
void test_join_empty(void)
{
    static const struct reading no_habit = {0, 0, 8, 1 * 4 + 3, 4, 0}, no_knee = {0, 0, 12, 3 * 3 + 1, 4, 0},
                                neither = {0, 0, 16, 3 * 4 + 3, 4, 0}, no_pair = {0, 0, 1, 0, 0, 0};
    struct lists of_knee, of_habit;
    struct model knee = knee_of_two(&of_knee), habit = habit_of_three(&of_habit), none = without_arcs(4, 3), also_none;

    none.start = 3;
    joined_empty("a habit without arcs", &knee, &none, no_habit);
    none.k = 2;
    joined_empty("a knee without arcs", &none, &habit, no_knee);
    also_none = none;
    joined_empty("both without arcs", &none, &also_none, neither);
    knee = with_action(&of_knee, CHARGEPLAN_ARCS_MOST, 3);
    habit = with_action(&of_habit, CHARGEPLAN_ARCS_MOST, 4);
    joined_empty("255 arcs each, no pair", &knee, &habit, no_pair);
}

/* The knee, the habit, or both are refused by this number and detail, with room and without. */
static void one_refused(const char *what, const struct model *m, uint32_t number, uint64_t detail)
{
    struct lists lists;
    struct model fit = habit_of_three(&lists);

    joined_as(what, m, &fit, number, detail);
    joined_as(what, &fit, m, number, detail);
    joined_as(what, m, m, number, detail);
    check(join_models(what, m, &fit, equal_rooms(0), NULL).number == number, what);
    check(join_models(what, &fit, m, equal_rooms(0), NULL).number == number, what);
}

/* 1, 2 and 4, and numbers that are not cut down. */
void test_join_numbers(void)
{
    static const uint32_t starts[] = {2, 3, 256, 65536, 0x55555556u, UINT32_MAX};
    struct lists lists;
    struct model m = knee_of_two(&lists);
    size_t i;

    each_wrong_number(&m, one_refused);
    for (i = 0; i < sizeof starts / sizeof starts[0]; i++) {
        m.start = starts[i];
        one_refused("2: start mode", &m, CHARGEPLAN_START_MODE, 0);
    }
}

void test_join_unequal(void)
{
    each_wrong_list(one_refused);
}

/* The arc of a knee or habit of three modes and two colours at this place is unfit; then those behind it are, too. */
static void one_unfit(size_t at, struct arc arc)
{
    struct lists lists;
    struct model m = habit_of_three(&lists);
    size_t a;

    put(&lists, at, arc);
    one_refused("5: an arc", &m, CHARGEPLAN_UNFIT_ARC, at);
    for (a = at; a < 4; a++)
        put(&lists, a, arc);
    one_refused("5: the lowest arc", &m, CHARGEPLAN_UNFIT_ARC, at);
}

/* 5 by every part, at every place; and by every action above 15, each at one of the places. */
void test_join_unfit(void)
{
    static const struct arc unfit[] = {{3, 0, 0, 0, 0, 7}, {255, 0, 0, 0, 0, 7}, {0, 3, 0, 0, 0, 7}, {0, 255, 0, 0, 0, 7},
        {0, 0, 10001, 0, 0, 7}, {0, 0, UINT16_MAX, 0, 0, 7}, {0, 0, 0, 10001, 0, 7}, {0, 0, 0, UINT16_MAX, 0, 7}, {0, 0, 0, 0, 4, 7},
        {0, 0, 0, 0, 128, 7}, {0, 0, 0, 0, 0, CHARGEPLAN_ACTION_MOST + 1}};
    size_t at, i;
    uint32_t action;

    for (at = 0; at < 4; at++)
        for (i = 0; i < sizeof unfit / sizeof unfit[0]; i++)
            one_unfit(at, unfit[i]);
    for (action = CHARGEPLAN_ACTION_MOST + 1; action <= UINT8_MAX; action++) {
        struct arc arc = {0, 0, 0, 0, 0, action};

        one_unfit(action % 4, arc);
    }
}

/* 5: one of 255 arcs, at every place of the knee and of the habit. */
void test_join_lone(void)
{
    struct lists lists, of_fit;
    struct model m = with_action(&lists, CHARGEPLAN_ARCS_MOST, 1), fit = with_action(&of_fit, 1, 1);
    uint32_t at;

    for (at = 0; at < CHARGEPLAN_ARCS_MOST; at++) {
        lists.actions[at] = CHARGEPLAN_ACTION_MOST + 1;
        joined_as("5: the action of one arc of the knee", &m, &fit, CHARGEPLAN_UNFIT_ARC, at);
        joined_as("5: the action of one arc of the habit", &fit, &m, CHARGEPLAN_UNFIT_ARC, at);
        lists.actions[at] = 1;
    }
    joined_as("255 arcs and one", &m, &fit, CHARGEPLAN_YES, 0);
    joined_as("one and 255 arcs", &fit, &m, CHARGEPLAN_YES, 0);
}

/* Every set of faults of the knee with every set of the habit, and lists long enough or one place too short for the nine pairs. */
void test_join_order(void)
{
    static const char what[] = "the order of the refusals";
    struct lists of_knee, of_habit;
    unsigned i, j, room;

    for (i = 0; i < 1u << MODEL_FAULTS; i++)
        for (j = 0; j < 1u << MODEL_FAULTS; j++)
            for (room = 8; room <= 9; room++) {
                struct model knee = with_faults(&of_knee, i, 1), habit = with_faults(&of_habit, j, 2);
                uint32_t own = first_fault(i), number = own != 0 ? own : first_fault(j);
                struct reading r = join_models(what, &knee, &habit, equal_rooms(room), NULL);

                check(r.number == (number != 0 ? number : room < 9 ? CHARGEPLAN_JOIN_SIZE : CHARGEPLAN_YES), what);
                check(r.detail == (number != CHARGEPLAN_UNFIT_ARC ? 0u : own != 0 ? 1u : 2u), what);
            }
}
