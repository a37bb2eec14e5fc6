#include "plain_reach.h"

#include <string.h>

/* Whether each pair is reached, and those that are reached and whose arcs are still to be tried. */
static uint8_t is_reached[PAIRS_MOST];
static uint32_t to_try[PAIRS_MOST];
static size_t trying;

void plain_find_leaving(const struct model *m, enum part part, struct leaving *of_mode)
{
    size_t a;

    memset(of_mode, 0, m->n * sizeof *of_mode);
    for (a = 0; a < m->sources_length; a++) {
        struct leaving *of_source = &of_mode[m->sources[a]];

        if (plain_may_stand(part, m, a))
            of_source->arcs[of_source->count++] = (uint8_t)a;
    }
}

static void reach_pair(uint32_t pair)
{
    if (is_reached[pair])
        return;
    is_reached[pair] = 1;
    to_try[trying++] = pair;
}

const uint8_t *plain_reached_pairs(const struct model *m, uint32_t c, uint32_t b)
{
    static struct leaving leaving[REACH_PLACES];
    size_t i;

    memset(is_reached, 0, m->n * (b + 1));
    plain_find_leaving(m, PREFIX, leaving);
    trying = 0;
    reach_pair(m->start * (b + 1) + c);
    while (trying > 0) {
        uint32_t pair = to_try[--trying];
        const struct leaving *arcs = &leaving[pair / (b + 1)];

        for (i = 0; i < arcs->count; i++) {
            int to = plain_pair_after(m, b, pair, arcs->arcs[i]);

            if (to >= 0)
                reach_pair((uint32_t)to);
        }
    }
    return is_reached;
}

/* "Keep for each mode the greatest charge with which it can be reached (the start mode by no arc with c), or 'unreached'." */
static void fill_charges(struct reach *r, const struct model *m, uint32_t c, uint32_t b)
{
    const uint8_t *reached = plain_reached_pairs(m, c, b);
    uint32_t mode, charge;

    for (mode = 0; mode < m->n; mode++)
        for (charge = 0; charge <= b; charge++)
            if (reached[mode * (b + 1) + charge])
                r->charges[mode] = (uint16_t)charge;
}

static void unreach(struct reach *r)
{
    size_t mode;

    for (mode = 0; mode < REACH_PLACES; mode++)
        r->charges[mode] = PLAIN_UNREACHED;
}

struct verdict plain_reach_start(struct reach *r, const struct model *m, uint32_t c, uint32_t b)
{
    struct verdict v = plain_fitness(m, c, b);

    r->switches = m->switches;
    unreach(r);
    if (v.number == 0)
        fill_charges(r, m, c, b);
    return v;
}

struct verdict plain_reach_switch(struct reach *r, const struct model *m, uint32_t c, uint32_t b, uint32_t arc, uint8_t on)
{
    struct verdict v = plain_fitness(m, c, b);
    struct model then = *m;

    if (v.number == 0 && arc >= m->sources_length)
        v.number = 12;
    if (v.number != 0 || plain_is_on(r->switches, arc) == (on != 0))
        return v;
    then.switches = r->switches;
    then.switches.on[arc / 64] ^= (uint64_t)1 << arc % 64;
    return plain_reach_start(r, &then, c, b);
}
