/* The join: random knees and habits, small and large, fit and unfit, into lists of any lengths. */
#include "joins.h"

#include <string.h>

/* How many random joins were answered by each number, up to 23. */
static unsigned long answers[CHARGEPLAN_JOIN_SIZE + 1];

/* A join into lists of random lengths, most of them long enough. */
static void random_join(const struct model *knee, const struct model *habit)
{
    size_t pairs = equal_actions(knee, habit);
    struct rooms rooms = random_rooms(pairs < 300 ? pairs : 300);
    struct reading r = join_models("random join", knee, habit, rooms, NULL);

    check(r.number <= CHARGEPLAN_JOIN_SIZE, "random join");
    if (r.number <= CHARGEPLAN_JOIN_SIZE)
        answers[r.number]++;
}

/* Makes those of the first actions that are fit smaller than this number. */
static void fewer_actions(struct lists *lists, size_t arcs, uint32_t count)
{
    size_t a;

    for (a = 0; a < arcs; a++)
        if (lists->actions[a] <= CHARGEPLAN_ACTION_MOST)
            lists->actions[a] = (uint8_t)(lists->actions[a] % count);
}

/* Every number that the join answers has come up, where there were joins enough for it. */
void test_random_joins(unsigned long models)
{
    static const uint32_t numbers[] = {0, 1, 2, 3, 4, 5, CHARGEPLAN_JOIN_SIZE};
    struct lists of_knee, of_habit;
    unsigned long i;

    memset(answers, 0, sizeof answers);
    memset(&of_knee, 0, sizeof of_knee);
    memset(&of_habit, 0, sizeof of_habit);
    for (i = 0; i < models; i++) {
        struct model knee = random_model(&of_knee), habit = random_model(&of_habit);
        uint32_t count = 1 + below(CHARGEPLAN_ACTION_MOST + 1);

        fewer_actions(&of_knee, SMALL_ARCS_MOST, count);
        fewer_actions(&of_habit, SMALL_ARCS_MOST, count);
        random_join(&knee, &habit);
    }
    for (i = 0; models >= 1000 && i < sizeof numbers / sizeof numbers[0]; i++)
        check(answers[numbers[i]] * 1000 >= models, "every number comes up among random joins");
}

/* A model with so many modes, colours and arcs, with draws and gains up to most. */
static struct model random_sized(struct lists *to, uint32_t n, uint32_t k, uint32_t arcs, uint32_t most)
{
    struct model m = listed(n, k, to, arcs);
    uint32_t a;

    m.start = below(n);
    for (a = 0; a < arcs; a++) {
        struct arc arc = {below(n), below(n), below(most + 1), below(most + 1), below(1u << k), below(CHARGEPLAN_ACTION_MOST + 1)};

        put(to, a, arc);
    }
    return m;
}

/* Up to 64 modes together, most of the time, and about 255 pairs; draws and gains that go together, most of the time. */
void test_random_large_joins(unsigned long models)
{
    struct lists of_knee, of_habit;
    unsigned long i;

    memset(answers, 0, sizeof answers);
    for (i = 0; i < models; i++) {
        uint32_t n = 1 + below(CHARGEPLAN_MODES_MOST), others = CHARGEPLAN_MODES_MOST / n + (below(16) == 0), k = below(5);
        uint32_t arcs = 1 + below(CHARGEPLAN_ARCS_MOST), pairs = 2 * CHARGEPLAN_ARCS_MOST * (CHARGEPLAN_ACTION_MOST + 1);
        uint32_t other_arcs = below(pairs / arcs), most = below(16) == 0 ? 5050 : 5000;
        struct model knee = random_sized(&of_knee, n, k, arcs, most), habit = random_sized(&of_habit, 1 + below(others),
            below(5 - k), other_arcs < CHARGEPLAN_ARCS_MOST ? other_arcs : CHARGEPLAN_ARCS_MOST, most);

        if (below(2))
            random_join(&knee, &habit);
        else
            random_join(&habit, &knee);
    }
    if (models >= 100)
        check(answers[CHARGEPLAN_YES] * 4 >= models && answers[CHARGEPLAN_JOIN_SIZE] * 8 >= models, "large joins, refused and not");
}
