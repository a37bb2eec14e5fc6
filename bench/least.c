/*
 * The least credit and the least bound in C, to compare the library with: the same checks, the arcs grouped once, and the same halving over
 * the decision of closing.c, so that answers are equal. The entries are REFERENCE_least_credit and REFERENCE_least_bound, where the build
 * names REFERENCE; REFERENCE_decisions counts the decisions that they make.
 */
#include "closing.h"
#include "reference.h"

uint32_t PASTE(REFERENCE, _decisions);

/* Whether there is a plan with a level of the model, its credit or its bound, at this value. */
static bool serves(const struct model *m, const struct groups *groups, int32_t *level, int32_t value)
{
    *level = value;
    PASTE(REFERENCE, _decisions)++;
    return PASTE(REFERENCE, _has_plan)(m, groups);
}

/* The least value of a level of the model, from lowest to highest, with which there is a plan; else 10. The highest is decided first. */
static uint64_t find_least(struct model *m, int32_t *level, int32_t lowest, int32_t highest)
{
    struct groups groups;

    group(m, &groups);
    if (!serves(m, &groups, level, highest))
        return CHARGEPLAN_NO_PLAN;
    while (lowest < highest) {
        int32_t middle = lowest + (highest - lowest) / 2;
        if (serves(m, &groups, level, middle))
            highest = middle;
        else
            lowest = middle + 1;
    }
    return (uint64_t)lowest << 32;
}

/* Refusals 7, of the level that is given, and 8, of the largest bound that may be tried. */
static uint64_t check_space(const struct model *m, uint32_t given, uint32_t largest, size_t work_len)
{
    if (m->modes * ((uint64_t)given + 1) > CHARGEPLAN_PRODUCT_MOST)
        return CHARGEPLAN_PRODUCT;
    return work_len < chargeplan_work_words(m->modes, m->levels, largest) ? CHARGEPLAN_WORKING_SPACE : CHARGEPLAN_YES;
}

uint64_t PASTE(REFERENCE, _least_credit)(uint32_t n, uint32_t start, uint32_t k, const uint8_t *sources, size_t sources_len,
                                         const uint8_t *targets, size_t targets_len, const uint16_t *draws, size_t draws_len,
                                         const uint16_t *gains, size_t gains_len, const uint8_t *colours, size_t colours_len,
                                         const uint8_t *actions, size_t actions_len, uint32_t b, uint8_t barred, uint64_t on0,
                                         uint64_t on1, uint64_t on2, uint64_t on3, uint16_t *work, size_t work_len)
{
    struct model m = {n,     start,   k,       sources_len, sources, targets, draws,
                      gains, colours, actions, (int32_t)b,  0,       barred,  {on0, on1, on2, on3}};
    uint64_t answer = check_model(&m, targets_len, draws_len, gains_len, colours_len, actions_len);

    if (answer == CHARGEPLAN_YES)
        answer = check_levels(0, b, CHARGEPLAN_BOUND_MOST);
    if (answer == CHARGEPLAN_YES)
        answer = check_space(&m, b, b, work_len);
    if (answer != CHARGEPLAN_YES)
        return answer;
    answer = find_least(&m, &m.credit, 0, (int32_t)b);
    memset(work, 0, work_len * sizeof work[0]);
    return answer;
}

uint64_t PASTE(REFERENCE, _least_bound)(uint32_t n, uint32_t start, uint32_t k, const uint8_t *sources, size_t sources_len,
                                        const uint8_t *targets, size_t targets_len, const uint16_t *draws, size_t draws_len,
                                        const uint16_t *gains, size_t gains_len, const uint8_t *colours, size_t colours_len,
                                        const uint8_t *actions, size_t actions_len, uint32_t c, uint8_t barred, uint64_t on0,
                                        uint64_t on1, uint64_t on2, uint64_t on3, uint16_t *work, size_t work_len)
{
    struct model m = {n,     start,   k,       sources_len, sources,    targets, draws,
                      gains, colours, actions, 0,           (int32_t)c, barred,  {on0, on1, on2, on3}};
    uint32_t largest = chargeplan_largest_bound(n);
    uint64_t answer = check_model(&m, targets_len, draws_len, gains_len, colours_len, actions_len);

    if (answer == CHARGEPLAN_YES)
        answer = check_space(&m, c, largest, work_len);
    if (answer != CHARGEPLAN_YES)
        return answer;
    answer = find_least(&m, &m.bound, (int32_t)c, (int32_t)largest);
    memset(work, 0, work_len * sizeof work[0]);
    return answer;
}
