/* What the header has of actions and the join: the join over structs, the two arcs of a joined arc, and actions that are a null pointer. */
#include "joins.h"
#include "texts.h"

#include <string.h>

/* Lists as the header has them, of this room. */
static struct chargeplan_lists lent_lists(struct lists *l, size_t room)
{
    struct chargeplan_lists lent = {l->sources, l->targets, l->draws, l->gains, l->colours, l->actions, room};
    return lent;
}

/* A join over structs into lists of this room is the one of the entry, and the model is made of it. */
static void same_join(const char *what, const struct model *knee, const struct model *habit, size_t room)
{
    struct lists lists, expected;
    struct chargeplan_lists lent = lent_lists(&lists, room);
    struct chargeplan_model k = as_one(knee), h = as_one(habit), m;
    struct reading entry;
    struct chargeplan_reading r;

    memset(&lists, 0x5a, sizeof lists);
    memset(&expected, 0x5a, sizeof expected);
    entry = join_models(what, knee, habit, equal_rooms(room), &expected);
    r = chargeplan_model_join(&m, &lent, &k, &h);
    check(r.number == entry.number && r.detail == entry.detail && r.n == entry.n && r.start == entry.start && r.k == entry.k
            && r.m == entry.m, what);
    check(memcmp(&lists, &expected, sizeof lists) == 0, what);
    check(m.n == entry.n && m.start == entry.start && m.k == entry.k && m.arcs == entry.m, what);
    check(m.sources == lists.sources && m.targets == lists.targets && m.draws == lists.draws && m.gains == lists.gains
            && m.colours == lists.colours && m.actions == lists.actions, what);
    check(chargeplan_number(chargeplan_model_gauge_start(&m, 0, 0).answer) == (entry.number == 0 ? CHARGEPLAN_YES : CHARGEPLAN_MODE_COUNT),
        what);
}

/* The pair of every joined arc, in the order of the join; of the numbers behind them no arcs. */
static void all_pairs(const char *what, const struct model *knee, const struct model *habit)
{
    static const uint32_t behind[] = {0, 1, 255, 65536, 0x10000000u};
    struct chargeplan_model k = as_one(knee), h = as_one(habit);
    uint32_t i, j, arc = 0;
    size_t b;

    for (i = 0; i < k.arcs; i++)
        for (j = 0; j < h.arcs; j++)
            if (knee->actions[i] == habit->actions[j]) {
                struct chargeplan_pair pair = chargeplan_model_pair(&k, &h, arc++);

                check(pair.knee == i && pair.habit == j, what);
            }
    for (b = 0; b <= sizeof behind / sizeof behind[0]; b++) {
        uint32_t number = b == sizeof behind / sizeof behind[0] ? UINT32_MAX : arc + behind[b];
        struct chargeplan_pair pair = chargeplan_model_pair(&k, &h, number);

        check(pair.knee == k.arcs && pair.habit == h.arcs, what);
    }
}

static void join_and_pairs(const char *what, const struct model *knee, const struct model *habit)
{
    same_join(what, knee, habit, CHARGEPLAN_ARCS_MOST);
    same_join(what, habit, knee, CHARGEPLAN_ARCS_MOST);
    same_join(what, knee, habit, 1);
    all_pairs(what, knee, habit);
    all_pairs(what, habit, knee);
}

/* The models of document 01's examples with some actions, a refused one, and two of 255 arcs. */
void test_join_functions(void)
{
    static const uint8_t some[] = {1, 0, 1}, others[] = {0, 1, 1};
    struct lists of_knee, of_habit;
    struct model g = model_g(), j = model_j(), e = model_e(), none = without_arcs(2, 1),
                 knee = with_action(&of_knee, CHARGEPLAN_ARCS_MOST, 1), habit = with_action(&of_habit, CHARGEPLAN_ARCS_MOST, 2);

    g.actions = some;
    j.actions = e.actions = others;
    join_and_pairs("G and J", &g, &j);
    join_and_pairs("G and E", &g, &e);
    join_and_pairs("J and J", &j, &j);
    join_and_pairs("no arcs", &g, &none);
    join_and_pairs("none at all", &none, &none);
    join_and_pairs("255 arcs each, no pair", &knee, &habit);
    of_habit.actions[100] = 1;
    join_and_pairs("255 pairs", &knee, &habit);
    of_habit.actions[254] = 1;
    join_and_pairs("23: 510 pairs", &knee, &habit);
    g.start = 2;
    join_and_pairs("2: start mode", &g, &j);
}

/* Random small models. */
void test_random_pairs(unsigned long models)
{
    struct lists of_knee, of_habit;
    unsigned long i;

    for (i = 0; i < models; i++) {
        struct model knee = random_fit_model(&of_knee), habit = random_fit_model(&of_habit);

        random_actions(&of_knee, knee.sources_length, 3);
        random_actions(&of_habit, habit.sources_length, 3);
        join_and_pairs("random pairs", &knee, &habit);
    }
}

/* Every call over a struct answers this number of a model with one mode. */
static void all_answer(const char *what, const struct chargeplan_model *m, uint32_t number)
{
    static const struct chargeplan_reach reach = {{CHARGEPLAN_ALL_ON}, {0}};
    struct chargeplan_gauge gauge = {0, 5, 0, 1, (uint8_t)m->arcs, 5};
    struct chargeplan_model none = {1, 0, 0, NULL, NULL, NULL, NULL, NULL, NULL, 0}, joined;
    struct lists lists;
    struct chargeplan_lists lent = lent_lists(&lists, CHARGEPLAN_ARCS_MOST);
    uint16_t work[64];
    uint32_t words[64];
    uint8_t plan[64];

    check(chargeplan_number(chargeplan_model_judge(m, 5, 5, 0, 0, 1, zeros)) == number, what);
    check(chargeplan_number(chargeplan_model_search(m, 5, 5, 0, reach.on, work, 64, plan, 64)) == number, what);
    check(chargeplan_number(chargeplan_model_decide(m, 5, 5, 0, reach.on, words, 64)) == number, what);
    check(chargeplan_number(chargeplan_model_least_credit(m, 5, 0, reach.on, work, 64)) == number, what);
    check(chargeplan_number(chargeplan_model_least_bound(m, 5, 0, reach.on, work, 64)) == number, what);
    check(chargeplan_number(chargeplan_model_gauge_start(m, 5, 5).answer) == number, what);
    check(chargeplan_number(chargeplan_model_gauge_step(&gauge, m, 5, 0)) == number, what);
    check(chargeplan_number(chargeplan_model_walk(m, 5, 5, 0, 0, 1, zeros, 0, 1)) == number, what);
    check(chargeplan_model_join(&joined, &lent, m, &none).number == number, what);
    check(chargeplan_model_join(&joined, &lent, &none, m).number == number, what);
    check(chargeplan_model_ward(NULL, 0, m, 0, 0, 1, zeros).number == number, what);
    check(chargeplan_number(chargeplan_model_reach_start(m, 5, 5, reach.on).answer) == number, what);
    check(chargeplan_number(chargeplan_model_reach_switch(reach, m, 5, 5, 0, 0).answer) == number, what);
}

/* A model initialised by names for version 2 has a null pointer for its actions: 3, where it has arcs. */
static void test_null_actions(void)
{
    struct chargeplan_model m = {1, 0, 0, zeros, zeros, nothing, nothing, zeros, NULL, 1}, whole = m, k = m;
    struct chargeplan_pair pair;

    all_answer("3: no actions", &m, CHARGEPLAN_ARC_LISTS);
    k.arcs = CHARGEPLAN_ARCS_MOST;
    all_answer("3: no actions of 255 arcs", &k, CHARGEPLAN_ARC_LISTS);
    m.arcs = 0;
    check(chargeplan_model_gauge_start(&m, 5, 5).answer == CHARGEPLAN_YES, "no arcs, no actions");
    whole.actions = zeros;
    check(chargeplan_model_gauge_start(&whole, 5, 5).answer == CHARGEPLAN_YES, "an arc with an action");
    pair = chargeplan_model_pair(&k, &whole, 0);
    check(pair.knee == CHARGEPLAN_ARCS_MOST && pair.habit == 1, "pairs of a knee without actions");
    pair = chargeplan_model_pair(&whole, &k, 0);
    check(pair.knee == 1 && pair.habit == CHARGEPLAN_ARCS_MOST, "pairs of a habit without actions");
}

/* Lists without one for the actions take no arc. */
static void test_null_list(void)
{
    static const char no_arcs[] = "HOA: v1\nStates: 1\nStart: 0\nAP: 0\nAcceptance: 0 t\n--BODY--\n--END--\n", dimacs[] = "p sp 1 0\n";
    struct lists lists;
    struct chargeplan_lists lent = lent_lists(&lists, CHARGEPLAN_ARCS_MOST);
    struct chargeplan_model one = {1, 0, 0, zeros, zeros, nothing, nothing, zeros, zeros, 1}, none = one, m;
    struct text h = as_text(knee_hoa), d = as_text(knee_dimacs), least = as_text(no_arcs), least_too = as_text(dimacs);

    lent.actions = NULL;
    none.arcs = 0;
    check(chargeplan_model_read(&m, &lent, h.bytes, h.length, d.bytes, d.length).number == CHARGEPLAN_ARC_LISTS, "3: no list of actions");
    check(chargeplan_model_read(&m, &lent, least.bytes, least.length, least_too.bytes, least_too.length).number == CHARGEPLAN_YES,
        "no arcs, no list of actions");
    check(chargeplan_model_join(&m, &lent, &one, &one).number == CHARGEPLAN_JOIN_SIZE, "23: no list of actions");
    check(chargeplan_model_join(&m, &lent, &one, &none).number == CHARGEPLAN_YES, "no pairs, no list of actions");
}

void test_no_actions(void)
{
    test_null_actions();
    test_null_list();
}
