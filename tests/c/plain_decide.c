#include "plain_decide.h"

#include "plain_reach.h"

#include <string.h>

/*
 * Components of pairs, in the order in which they are found: a pair is in the component of another where walks of a cycle's arcs lead both
 * ways. Places and components are counted from 1, and 0 is for none.
 */
static uint32_t found_at[PAIRS_MOST], lowest[PAIRS_MOST], component[PAIRS_MOST], found, components;

/* The pairs that are found and in no component yet, and the path by which the last was found, with the arc that is next at each pair. */
static uint32_t open[PAIRS_MOST], path[PAIRS_MOST];
static uint8_t next_arc[PAIRS_MOST];
static size_t opened, followed;

static struct leaving leaving[REACH_PLACES];

static void find_pair(uint32_t pair)
{
    found_at[pair] = lowest[pair] = ++found;
    next_arc[pair] = 0;
    open[opened++] = pair;
    path[followed++] = pair;
}

static void lower(uint32_t pair, uint32_t place)
{
    if (place < lowest[pair])
        lowest[pair] = place;
}

/* All arcs of the last pair of the path were followed: where no walk leads back before it, the pairs found since are its component. */
static void leave_pair(void)
{
    uint32_t pair = path[--followed];

    if (lowest[pair] == found_at[pair]) {
        components++;
        do
            component[open[--opened]] = components;
        while (open[opened] != pair);
    }
    if (followed > 0)
        lower(path[followed - 1], lowest[pair]);
}

/* Follows the next arc from the last pair of the path. */
static void follow(const struct model *m, uint32_t b)
{
    uint32_t pair = path[followed - 1];
    const struct leaving *arcs = &leaving[pair / (b + 1)];
    int to;

    if (next_arc[pair] == arcs->count) {
        leave_pair();
        return;
    }
    to = plain_pair_after(m, b, pair, arcs->arcs[next_arc[pair]++]);
    if (to >= 0 && found_at[to] == 0)
        find_pair((uint32_t)to);
    else if (to >= 0 && component[to] == 0)
        lower(pair, found_at[to]);
}

static void find_components(const struct model *m, uint32_t b, const uint8_t *reached)
{
    uint32_t pairs = m->n * (b + 1), pair;

    memset(found_at, 0, pairs * sizeof found_at[0]);
    memset(component, 0, pairs * sizeof component[0]);
    found = components = 0;
    for (pair = 0; pair < pairs; pair++) {
        if (reached[pair] && found_at[pair] == 0)
            find_pair(pair);
        while (followed > 0)
            follow(m, b);
    }
}

/* The colours on a cycle's arcs inside each component; a bit more where there is an arc. */
enum { SOME_ARC = 1 << 7 };
static uint8_t met[PAIRS_MOST + 1];

static void meet_colours(const struct model *m, uint32_t b, const uint8_t *reached)
{
    uint32_t pairs = m->n * (b + 1), pair;
    size_t i;

    memset(met, 0, components + 1);
    for (pair = 0; pair < pairs; pair++) {
        const struct leaving *arcs = &leaving[pair / (b + 1)];

        for (i = 0; reached[pair] && i < arcs->count; i++) {
            int to = plain_pair_after(m, b, pair, arcs->arcs[i]);

            if (to >= 0 && component[to] == component[pair])
                met[component[pair]] |= (uint8_t)(m->colours[arcs->arcs[i]] | SOME_ARC);
        }
    }
}

/* In a plan the pair at the beginning of a round comes again: so there is one exactly where a component has an arc and the colours. */
int plain_has_plan_of_many_pairs(const struct model *m, uint32_t c, uint32_t b)
{
    const uint8_t *reached = plain_reached_pairs(m, c, b);
    uint32_t i;

    plain_find_leaving(m, CYCLE, leaving);
    find_components(m, b, reached);
    meet_colours(m, b, reached);
    for (i = 1; i <= components; i++)
        if (met[i] >= SOME_ARC && plain_has_required(m, met[i]))
            return 1;
    return 0;
}

/* "Here 6 is given only where b is above 1,000,000 or c above b, 7 and 9 are not looked at, a short space is 8". */
struct verdict plain_decide(const struct model *m, uint32_t c, uint32_t b, size_t words)
{
    /* With these levels 6 does not apply. */
    struct verdict v = plain_fitness(m, 0, 0);

    if (v.number != 0)
        return v;
    if (b > 1000000 || c > b)
        v.number = 6;
    else if (words < 16 * (m->k + 1) * m->n)
        v.number = 8;
    else if (!plain_has_plan_of_many_pairs(m, c, b))
        v.number = 10;
    return v;
}
