/*
 * Models with one weight for each arc: draw -w, gain 0 where w is negative, else draw 0, gain w. The plain reading goes by the weights,
 * as document 01 has it. Random ones are in random.c.
 */
#include "calls.h"

struct model by_weights(struct model m, const int16_t *weights, struct lists *to)
{
    size_t a;

    for (a = 0; a < m.sources_length; a++) {
        to->draws[a] = chargeplan_draw_of(weights[a]);
        to->gains[a] = chargeplan_gain_of(weights[a]);
    }
    m.draws = to->draws;
    m.draws_length = m.sources_length;
    m.gains = to->gains;
    m.gains_length = m.sources_length;
    m.weights = weights;
    return m;
}

/* Draw and gain of every word: one of them is 0, and the gain less the draw is the weight. */
void test_parts_of_weights(void)
{
    int32_t w;

    for (w = INT16_MIN; w <= INT16_MAX; w++) {
        int32_t draw = chargeplan_draw_of((int16_t)w), gain = chargeplan_gain_of((int16_t)w);

        check((draw == 0 || gain == 0) && gain - draw == w, "draw and gain of a weight");
    }
}

/* Document 01's examples, with the weights that it gives. */
void test_examples_by_weights(void)
{
    static const uint8_t plan_i[] = {0, 0, 0, 0, 0, 1, 2};
    static const int16_t none[] = {0}, minus_one[] = {-1}, there_and_back[] = {3, -3}, charged[] = {1, -5, 0}, coloured[] = {-2, 2};
    struct lists lists[5];
    struct examples of = {by_weights(model_a(), none, &lists[0]), by_weights(model_b(), minus_one, &lists[1]),
        by_weights(model_e(), there_and_back, &lists[2]), by_weights(model_g(), charged, &lists[3]),
        by_weights(model_j(), coloured, &lists[4])};

    check_examples(&of);
    walked("M by weights", &of.g, 0, 5, 6, 1, plan_i, 7, 0, 7, met(7));
    walked("M by weights, allowance 6", &of.g, 0, 5, 6, 1, plan_i, 7, 0, 6, spent(6));
}

/* A step on an arc of this weight from a charge, by document 01's own words. */
static void stepped_by_weight(int16_t weight, uint32_t charge, uint32_t b)
{
    struct lists lists;
    struct model m = by_weights(model_a(), &weight, &lists);
    struct gauge g = gauge_at(&m, b, 0, charge, 9);
    int32_t sum = (int32_t)charge + weight, most = (int32_t)b;
    struct stop stop = {0, 0, (uint32_t)(sum < most ? sum : most), 9 + (uint64_t)(sum > most ? sum - most : 0)};

    if (sum < 0)
        stepped("a step by weight", &g, &m, b, 0, CHARGEPLAN_IMPOSSIBLE_STEP, 0);
    else
        moved("a step by weight", &g, &m, b, stop);
}

/* Small weights from every small charge, and great ones from the ends of a battery. */
void test_weight_steps(void)
{
    static const int16_t weights[] = {-10000, -8192, -8191, -8190, -1, 0, 1, 8190, 8191, 8192, 10000};
    static const uint32_t charges[] = {0, 1, 8190, 8191};
    uint32_t b, charge;
    int16_t w;
    size_t i, j;

    for (b = 0; b <= 4; b++)
        for (charge = 0; charge <= b; charge++)
            for (w = -6; w <= 6; w++)
                stepped_by_weight(w, charge, b);
    for (i = 0; i < sizeof weights / sizeof weights[0]; i++)
        for (j = 0; j < sizeof charges / sizeof charges[0]; j++)
            stepped_by_weight(weights[i], charges[j], CHARGEPLAN_BOUND_MOST);
}

/* 5: a weight outside its range is refused as before, by its draw or its gain. */
void test_unfit_weights(void)
{
    static const int16_t unfit[] = {-10001, 10001, INT16_MIN, INT16_MAX}, least_and_most[] = {-10000, 10000};
    struct lists lists;
    struct model m;
    size_t i;

    for (i = 0; i < sizeof unfit / sizeof unfit[0]; i++) {
        int16_t second[] = {10000, unfit[i]}, both[] = {unfit[i], unfit[i]};

        m = by_weights(model_e(), second, &lists);
        all_refused("5: weight", &m, 2, 5, CHARGEPLAN_UNFIT_ARC, 1);
        m = by_weights(model_e(), both, &lists);
        all_refused("5: weights", &m, 2, 5, CHARGEPLAN_UNFIT_ARC, 0);
    }
    m = by_weights(model_e(), least_and_most, &lists);
    refused("the least and the greatest weight", &m, 2, 5, CHARGEPLAN_NO_PLAN, 0);
}
