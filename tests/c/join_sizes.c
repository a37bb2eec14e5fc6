/* The join, 23: each of its five conditions alone, at its limit and one above it. */
#include "joins.h"

/* Models without arcs: every n1 and n2, of which the product may be 64 at most. */
static void test_joined_modes(void)
{
    struct model knee = without_arcs(1, 0), habit = knee;
    uint32_t at_limit = 0;

    for (knee.n = 1; knee.n <= CHARGEPLAN_MODES_MOST; knee.n++)
        for (habit.n = 1; habit.n <= CHARGEPLAN_MODES_MOST; habit.n++) {
            uint32_t modes = knee.n * habit.n;

            knee.start = knee.n - 1;
            habit.start = habit.n - 1;
            joined_as("23: modes", &knee, &habit, modes > CHARGEPLAN_MODES_MOST ? CHARGEPLAN_JOIN_SIZE : CHARGEPLAN_YES, 0);
            at_limit += modes == CHARGEPLAN_MODES_MOST;
        }
    check(at_limit == 7, "64 modes, in seven ways");
}

/* Every k1 and k2, of which the sum may be 4 at most. */
static void test_joined_colours(void)
{
    struct lists of_knee, of_habit;
    struct model knee = with_action(&of_knee, 2, 5), habit = with_action(&of_habit, 3, 5);

    for (knee.k = 0; knee.k <= CHARGEPLAN_COLOURS_MOST; knee.k++)
        for (habit.k = 0; habit.k <= CHARGEPLAN_COLOURS_MOST; habit.k++)
            joined_as("23: colours", &knee, &habit,
                knee.k + habit.k > CHARGEPLAN_COLOURS_MOST ? CHARGEPLAN_JOIN_SIZE : CHARGEPLAN_YES, 0);
}

/* So many arcs of knee and habit with one action: all pairs are joined arcs. */
static void arcs_of_one_action(size_t i, size_t j)
{
    struct lists of_knee, of_habit;
    struct model knee = with_action(&of_knee, i, 9), habit = with_action(&of_habit, j, 9);

    joined_as("23: arcs", &knee, &habit, i * j > CHARGEPLAN_ARCS_MOST ? CHARGEPLAN_JOIN_SIZE : CHARGEPLAN_YES, 0);
}

/* 254 to 257 pairs: 15 * 16 of action 1, and 14 to 17 of action 2. */
static void test_two_actions(void)
{
    struct lists of_knee, of_habit;
    struct model knee = with_action(&of_knee, 16, 1), habit;
    size_t more, a;

    of_knee.actions[7] = 2;
    for (more = 14; more <= 17; more++) {
        habit = with_action(&of_habit, 16 + more, 1);
        for (a = 0; a < more; a++)
            of_habit.actions[a] = 2;
        joined_as("23: arcs of two actions", &knee, &habit, more > 15 ? CHARGEPLAN_JOIN_SIZE : CHARGEPLAN_YES, 0);
    }
}

/* As many pairs as there may be, one more, and as many as there can be. */
static void test_joined_arcs(void)
{
    static const size_t arcs[][2] = {{1, 255}, {255, 1}, {15, 17}, {17, 15}, {5, 51}, {51, 5}, {2, 127}, {127, 2}, {2, 128}, {128, 2},
        {16, 16}, {4, 64}, {64, 4}, {255, 2}, {2, 255}, {255, 254}, {254, 255}, {255, 255}, {86, 3}, {3, 86}, {85, 3}, {3, 85}};
    size_t i;

    for (i = 0; i < sizeof arcs / sizeof arcs[0]; i++)
        arcs_of_one_action(arcs[i][0], arcs[i][1]);
    test_two_actions();
}

/* A knee's and a habit's move; their sums. */
struct moves {
    uint32_t draw, gain, habit_draw, habit_gain;
};

static int too_great(struct moves m)
{
    return m.draw + m.habit_draw > CHARGEPLAN_DRAW_MOST || m.gain + m.habit_gain > CHARGEPLAN_GAIN_MOST;
}

/* The two moves on arcs of one action; then on arcs of two, where nothing is joined and nothing too great. */
static void joined_moves(struct moves m)
{
    struct lists of_knee, of_habit;
    struct model knee = with_action(&of_knee, 1, 4), habit = with_action(&of_habit, 1, 4);
    struct arc arc = {0, 0, m.draw, m.gain, 0, 4}, of_wearer = {0, 0, m.habit_draw, m.habit_gain, 0, 4};

    put(&of_knee, 0, arc);
    put(&of_habit, 0, of_wearer);
    joined_as("23: draws and gains", &knee, &habit, too_great(m) ? CHARGEPLAN_JOIN_SIZE : CHARGEPLAN_YES, 0);
    of_habit.actions[0] = 5;
    joined_as("draws and gains of other actions", &knee, &habit, CHARGEPLAN_YES, 0);
}

/* Draws and gains whose sums are 10,000 and next to it, and the greatest. */
static void test_joined_sums(void)
{
    static const uint32_t numbers[] = {0, 1, 2, 4999, 5000, 5001, 9998, 9999, 10000};
    enum { NUMBERS = sizeof numbers / sizeof numbers[0] };
    size_t i, j;

    for (i = 0; i < NUMBERS; i++)
        for (j = 0; j < NUMBERS; j++) {
            struct moves draws = {numbers[i], 0, numbers[j], 0}, gains = {0, numbers[i], 0, numbers[j]},
                         crossed = {numbers[i], numbers[NUMBERS - 1 - i], 0, numbers[j]},
                         both = {numbers[i], numbers[i], 10000 - numbers[i], numbers[j]};

            joined_moves(draws);
            joined_moves(gains);
            joined_moves(crossed);
            joined_moves(both);
        }
}

/* One pair of 15 * 17 is too great, by its draw or its gain, at every place. */
static void test_joined_lone_sum(void)
{
    enum { KNEE = 15, HABIT = 17 };
    static const struct arc plain = {0, 0, 5000, 5000, 0, 6}, draws = {0, 0, 5001, 5000, 0, 6}, gains = {0, 0, 5000, 5001, 0, 6};
    struct lists of_knee, of_habit;
    struct model knee = with_action(&of_knee, KNEE, 6), habit = with_action(&of_habit, HABIT, 6);
    size_t i, j;

    for (i = 0; i < KNEE; i++)
        put(&of_knee, i, plain);
    for (j = 0; j < HABIT; j++)
        put(&of_habit, j, plain);
    joined_as("255 pairs of 10,000", &knee, &habit, CHARGEPLAN_YES, 0);
    for (i = 0; i < KNEE; i++) {
        put(&of_knee, i, draws);
        joined_as("23: the draw of an arc of the knee", &knee, &habit, CHARGEPLAN_JOIN_SIZE, 0);
        put(&of_knee, i, gains);
        joined_as("23: the gain of an arc of the knee", &knee, &habit, CHARGEPLAN_JOIN_SIZE, 0);
        put(&of_knee, i, plain);
    }
    for (j = 0; j < HABIT; j++) {
        put(&of_habit, j, draws);
        joined_as("23: the draw of an arc of the habit", &knee, &habit, CHARGEPLAN_JOIN_SIZE, 0);
        put(&of_habit, j, gains);
        joined_as("23: the gain of an arc of the habit", &knee, &habit, CHARGEPLAN_JOIN_SIZE, 0);
        put(&of_habit, j, plain);
    }
}

/* So many pairs into lists of one length, but for one list, which has so many places. */
static void into_rooms(size_t knee_arcs, size_t habit_arcs, size_t list, size_t places, size_t others)
{
    struct lists of_knee, of_habit;
    struct model knee = with_action(&of_knee, knee_arcs, 8), habit = with_action(&of_habit, habit_arcs, 8);
    struct rooms rooms = equal_rooms(others);
    size_t pairs = knee_arcs * habit_arcs;
    struct reading r, expected = {CHARGEPLAN_JOIN_SIZE, 0, 0, 0, 0, 0}, fits = {CHARGEPLAN_YES, 0, 1, 0, 0, (uint32_t)pairs};

    rooms.of[list] = places;
    r = join_models("one list of another length", &knee, &habit, rooms, NULL);
    check_filled("one list of another length", r,
        pairs <= CHARGEPLAN_ARCS_MOST && pairs <= places && pairs <= others ? fits : expected);
}

/* Each list in turn has as many places as there are pairs, one less, one more, or none; the others as many, or more. */
static void test_each_room(void)
{
    static const size_t arcs[][2] = {{1, 1}, {2, 3}, {15, 17}};
    size_t list, i;

    for (list = 0; list < MODEL_LISTS; list++)
        for (i = 0; i < sizeof arcs / sizeof arcs[0]; i++) {
            size_t x = arcs[i][0], y = arcs[i][1], pairs = x * y;

            into_rooms(x, y, list, pairs, pairs);
            into_rooms(x, y, list, pairs, pairs + 1);
            into_rooms(x, y, list, pairs, 1000);
            into_rooms(x, y, list, pairs - 1, pairs);
            into_rooms(x, y, list, pairs - 1, 1000);
            into_rooms(x, y, list, 0, pairs);
            into_rooms(x, y, list, pairs + 1, pairs);
            into_rooms(x, y, list, 1000, pairs);
            into_rooms(x, y, list, 1000, pairs - 1);
        }
}

/* Lists longer than a model: they take 255 pairs and fewer, and more pairs are refused. */
static void test_long_rooms(void)
{
    static const size_t rooms[] = {256, 257, 300, 65536, 65537, 70000};
    size_t i;

    for (i = 0; i < sizeof rooms / sizeof rooms[0]; i++) {
        into_rooms(0, 3, 0, rooms[i], rooms[i]);
        into_rooms(2, 3, 0, rooms[i], rooms[i]);
        into_rooms(15, 17, 0, rooms[i], rooms[i]);
        into_rooms(16, 16, 0, rooms[i], rooms[i]);
    }
}

/* Two models that 23 refuses: 5 of the habit and 5 of the knee come before it. Their arcs are in these lists. */
static void looked_at_last(const char *what, const struct model *knee, struct lists *of_knee, const struct model *habit,
    struct lists *of_habit)
{
    uint32_t last = (uint32_t)knee->sources_length - 1, last_of_habit = (uint32_t)habit->sources_length - 1;

    joined_as(what, knee, habit, CHARGEPLAN_JOIN_SIZE, 0);
    of_habit->targets[last_of_habit] = UINT8_MAX;
    joined_as(what, knee, habit, CHARGEPLAN_UNFIT_ARC, last_of_habit);
    of_knee->targets[last] = UINT8_MAX;
    joined_as(what, knee, habit, CHARGEPLAN_UNFIT_ARC, last);
}

/* By modes, colours, arcs, draws and gains; by the lists it is in the order of the refusals. */
void test_join_last(void)
{
    struct lists of_knee, of_habit;
    struct model knee = with_action(&of_knee, 2, 1), habit = with_action(&of_habit, 3, 1);

    knee.n = 13;
    habit.n = 5;
    looked_at_last("65 modes", &knee, &of_knee, &habit, &of_habit);
    knee = with_action(&of_knee, 2, 1);
    habit = with_action(&of_habit, 3, 1);
    knee.k = 4;
    habit.k = 1;
    looked_at_last("5 colours", &knee, &of_knee, &habit, &of_habit);
    knee = with_action(&of_knee, 2, 1);
    habit = with_action(&of_habit, 128, 1);
    looked_at_last("256 arcs", &knee, &of_knee, &habit, &of_habit);
    knee = with_action(&of_knee, 2, 1);
    habit = with_action(&of_habit, 3, 1);
    of_knee.draws[0] = 10000;
    of_habit.draws[0] = 1;
    looked_at_last("a draw of 10,001", &knee, &of_knee, &habit, &of_habit);
    knee = with_action(&of_knee, 2, 1);
    habit = with_action(&of_habit, 3, 1);
    of_knee.gains[0] = 1;
    of_habit.gains[0] = 10000;
    looked_at_last("a gain of 10,001", &knee, &of_knee, &habit, &of_habit);
}

void test_join_sizes(void)
{
    test_joined_modes();
    test_joined_colours();
    test_joined_arcs();
    test_joined_sums();
    test_joined_lone_sum();
}

void test_join_rooms(void)
{
    test_each_room();
    test_long_rooms();
}
