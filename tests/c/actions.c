/* Actions: 5 refuses those above 15 in every call, and those up to 15 change no answer but the join's. */
#include "calls.h"

#include <string.h>

/* Example G with this action at this place, and then with the greatest byte at the last place, too. */
static void unfit_action(uint32_t at, uint32_t action)
{
    static const uint8_t as_given[] = {0, 1, 2};
    struct lists lists;
    struct model g = model_g(), m = reordered(&g, as_given, &lists);

    lists.actions[at] = (uint8_t)action;
    all_refused("5: an action", &m, 0, 5, CHARGEPLAN_UNFIT_ARC, at);
    lists.actions[2] = UINT8_MAX;
    all_refused("5: the lowest action", &m, 0, 5, CHARGEPLAN_UNFIT_ARC, at);
}

/* Every action above 15, each at one of the three places. */
void test_unfit_actions(void)
{
    uint32_t action;

    for (action = CHARGEPLAN_ACTION_MOST + 1; action <= UINT8_MAX; action++)
        unfit_action(action % 3, action);
}

/* Every action up to 15 on all arcs of document 01's examples. */
void test_examples_with_actions(void)
{
    uint8_t actions[3];
    uint32_t action;

    for (action = 0; action <= CHARGEPLAN_ACTION_MOST; action++) {
        struct examples of = {model_a(), model_b(), model_e(), model_g(), model_j()};

        memset(actions, (int)action, sizeof actions);
        of.a.actions = of.b.actions = of.e.actions = of.g.actions = of.j.actions = actions;
        check_examples(&of);
    }
}

/* Plans that are found where a small model has one of the small bounds. */
enum { BOUNDS = 16, FOUND_MOST = (CHARGEPLAN_COLOURS_MOST + 2) * 4 * BOUNDS };

/* Search answers the same for both, with the same plan. */
static void same_search(const struct model *m, const struct model *other, uint32_t c, uint32_t b)
{
    uint8_t plan[FOUND_MOST], again[FOUND_MOST];
    uint64_t answer = search_exactly("actions, searched", m, c, b, plan);

    check(search_exactly("other actions, searched", other, c, b, again) == answer, "actions, searched");
    check(same(plan, again, chargeplan_prefix(answer) + chargeplan_cycle(answer)), "actions, searched");
}

/* Judging and the walk answer the same for both, of a random plan. */
static void same_plan(const struct model *m, const struct model *other, uint32_t c, uint32_t b)
{
    uint8_t plan[12];
    size_t length = m->sources_length == 0 ? 0 : random_plan(m, plan, sizeof plan);
    uint32_t p = length == 0 ? 0 : below((uint32_t)length), q = (uint32_t)length - p, j = below(6);
    uint64_t judgement = judge("actions, judged", m, c, b, p, q, plan, length);
    uint64_t outcome = walk("actions, walked", m, c, b, p, q, plan, length, j, 9);

    check(judge("other actions, judged", other, c, b, p, q, plan, length) == judgement, "actions, judged");
    check(walk("other actions, walked", other, c, b, p, q, plan, length, j, 9) == outcome, "actions, walked");
}

/* A gauge of each makes the same random steps. */
static void same_gauge(const struct model *m, const struct model *other, uint32_t c, uint32_t b)
{
    struct gauge g, h;
    unsigned steps;

    check(start_gauge("actions, started", &g, m, c, b) == start_gauge("other actions, started", &h, other, c, b), "actions, started");
    for (steps = 0; steps < 6; steps++) {
        uint32_t arc = random_arc(m, g.mode);
        uint64_t answer = step_gauge("actions, stepped", &g, m, b, arc);

        check(step_gauge("other actions, stepped", &h, other, b, arc) == answer, "actions, stepped");
        check_gauge("actions, stepped", g, h);
    }
}

/* Random models, and the same with other actions. */
void test_random_actions(unsigned long models)
{
    struct lists lists;
    uint8_t actions[SMALL_ARCS_MOST];
    unsigned long i;
    size_t a;

    for (i = 0; i < models; i++) {
        struct model m = random_fit_model(&lists), other = m;
        uint32_t b = below(BOUNDS), c = below(b + 1);

        for (a = 0; a < SMALL_ARCS_MOST; a++)
            actions[a] = (uint8_t)below(CHARGEPLAN_ACTION_MOST + 1);
        other.actions = actions;
        same_search(&m, &other, c, b);
        same_plan(&m, &other, c, b);
        same_gauge(&m, &other, c, b);
    }
}
