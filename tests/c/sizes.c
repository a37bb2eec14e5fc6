/* Random small models with draws, gains and bounds of every size, up to the greatest that a call takes. */
#include "calls.h"

#include <string.h>

/* A number up to most: of every size, small ones as often as great ones. */
static uint32_t of_any_size(uint32_t most)
{
    return below((most >> below(14)) + 1);
}

/* Other draws and gains, seldom above the bound, and often no colours: so that many plans are feasible and accepted. */
static void resize(struct model *m, struct lists *lists, uint32_t b)
{
    uint32_t most = below(8) == 0 ? CHARGEPLAN_GAIN_MOST : b;

    random_moves(lists, m->sources_length, below(2) ? most : of_any_size(most), most);
    if (below(2)) {
        m->k = 0;
        memset(lists->colours, 0, sizeof lists->colours);
    }
}

void test_random_sizes(unsigned long models)
{
    struct lists lists;
    unsigned long i;

    for (i = 0; i < models; i++) {
        struct model m = random_fit_model(&lists);
        uint32_t b = of_any_size(CHARGEPLAN_BOUND_MOST), c = below(b + 1);

        resize(&m, &lists, b);
        random_plan_tried(&m, c, b);
    }
}

/* Whether one of some random plans is feasible and accepted. */
static int has_random_plan(const struct model *m, uint32_t c, uint32_t b)
{
    unsigned tries;
    int has = 0;

    for (tries = 0; tries < 20; tries++)
        has |= random_plan_tried(m, c, b);
    return has;
}

/* The number that search answers, with buffers exactly as long as they must be. */
static uint32_t searched(const char *what, const struct model *m, uint32_t c, uint32_t b)
{
    return chargeplan_number(
        search(what, m, c, b, chargeplan_work_words(m->n, m->k, b), chargeplan_plan_bytes(m->n, m->k, b), 0x3c5au));
}

/* There are too many pairs for plain_has_plan: a plan found is judged, and none may be missed where a random one is judged good. */
void test_random_searches(unsigned long models)
{
    struct lists lists;
    unsigned long i;

    for (i = 0; i < models; i++) {
        struct model m = random_fit_model(&lists);
        uint32_t b = of_any_size(CHARGEPLAN_PRODUCT_MOST / m.n - 1), c = below(b + 1), number;

        resize(&m, &lists, b);
        number = searched("random search", &m, c, b);
        check(number == CHARGEPLAN_YES || (number == CHARGEPLAN_NO_PLAN && !has_random_plan(&m, c, b)), "random search");
    }
}

struct model scaled(const struct model *m, uint32_t times, struct lists *to)
{
    struct model r = *m;
    size_t a;

    for (a = 0; a < m->sources_length; a++) {
        to->draws[a] = (uint16_t)(m->draws[a] * times);
        to->gains[a] = (uint16_t)(m->gains[a] * times);
    }
    r.draws = to->draws;
    r.gains = to->gains;
    return r;
}

/* How many times as great a small model may be made, at random: for search, and for the greatest gain. */
static uint32_t random_times(uint32_t n, uint32_t b)
{
    uint32_t by_gain = CHARGEPLAN_GAIN_MOST / SMALL_MOVE_MOST, by_product = b == 0 ? by_gain : (CHARGEPLAN_PRODUCT_MOST / n - 1) / b;

    return 1 + below(by_gain < by_product ? by_gain : by_product);
}

/*
 * With draws, gains, credit and bound all so many times as great, every charge is: there is a plan exactly where the small model has one,
 * and that has few enough pairs for plain_has_plan.
 */
void test_random_scaled(unsigned long models)
{
    struct lists lists, to;
    unsigned long i;

    for (i = 0; i < models; i++) {
        struct model m = random_fit_model(&lists), s;
        uint32_t b = below(16), c = below(b + 1), times = random_times(m.n, b);

        s = scaled(&m, times, &to);
        check(searched("scaled", &s, c * times, b * times) == (plain_has_plan(&m, c, b) ? CHARGEPLAN_YES : CHARGEPLAN_NO_PLAN),
            "random model scaled up");
    }
}
