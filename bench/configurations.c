/* The search over configurations: a mode with a charge and, on a way round, a level. */
#include "model.h"
#include "rivals.h"

enum { CONFIGURATIONS_MOST = (CHARGEPLAN_COLOURS_MOST + 1) * CHARGEPLAN_PRODUCT_MOST };

/* Which configurations were come to, and a queue of them. Kept between calls, so that no call has to ask for memory. */
static bool seen[CONFIGURATIONS_MOST];
static uint16_t queue[CONFIGURATIONS_MOST];

/* A search over the levels 0 to last; it stops where it comes to the node goal, a mode in a level, with the charge least or more. */
struct sweep {
    const struct model *m;
    struct groups groups;
    bool lasting; /* arcs with a barred colour are left out */
    uint32_t last;
    uint32_t goal;
    int32_t least;
    size_t tail; /* of the queue */
};

static void come_to(struct sweep *s, size_t configuration)
{
    if (seen[configuration])
        return;
    seen[configuration] = true;
    queue[s->tail++] = (uint16_t)configuration;
}

/* Tries the arcs that leave a configuration. Returns whether one comes to the goal. */
static bool try_arcs(struct sweep *s, size_t configuration)
{
    uint32_t charges = (uint32_t)s->m->bound + 1, node = (uint32_t)configuration / charges, mode = node % s->m->modes;

    for (size_t i = s->groups.first[mode]; i < s->groups.first[mode + 1]; i++) {
        const struct row *row = &s->groups.rows[i];
        int32_t charge = step((int32_t)(configuration % charges), row->draw, row->gain, s->m->bound);
        if (charge < 0 || (s->lasting && row->barred))
            continue;
        uint32_t next = next_level(node / s->m->modes, s->last, row->colours) * s->m->modes + row->target;
        if (next == s->goal && charge >= s->least)
            return true;
        come_to(s, (size_t)next * charges + (uint32_t)charge);
    }
    return false;
}

/* Searches from a mode with a charge. Returns whether it came to the goal. */
static bool sweep_from(struct sweep *s, uint32_t mode, int32_t charge)
{
    size_t charges = (size_t)s->m->bound + 1;

    memset(seen, 0, (s->last + 1) * s->m->modes * charges * sizeof seen[0]);
    s->tail = 0;
    come_to(s, mode * charges + (uint32_t)charge);
    for (size_t head = 0; head < s->tail; head++)
        if (try_arcs(s, queue[head]))
            return true;
    return false;
}

/* The greatest charge of each mode, below 0 for none: a search over one level that no charge stops. */
static void find_peaks(struct sweep *s, int32_t *peaks)
{
    s->lasting = false;
    s->last = 0;
    s->goal = 0;
    s->least = s->m->bound + 1;
    sweep_from(s, s->m->start, s->m->credit);
    for (uint32_t mode = 0; mode < s->m->modes; mode++) {
        int32_t charge = s->m->bound;
        while (charge >= 0 && !seen[mode * ((size_t)s->m->bound + 1) + (uint32_t)charge])
            charge--;
        peaks[mode] = charge;
    }
}

uint64_t search_configurations(const struct chargeplan_model *given, uint32_t c, uint32_t b, uint8_t barred, const uint64_t *on)
{
    struct model m = model_of(given, c, b, barred, on);
    int32_t peaks[CHARGEPLAN_MODES_MOST];
    struct sweep s = {.m = &m};

    group(&m, &s.groups);
    find_peaks(&s, peaks);
    s.lasting = true;
    s.last = count_required(&m);
    for (uint32_t mode = 0; mode < m.modes; mode++) {
        s.goal = s.last * m.modes + mode;
        s.least = peaks[mode];
        if (peaks[mode] >= 0 && sweep_from(&s, mode, peaks[mode]))
            return CHARGEPLAN_YES;
    }
    return CHARGEPLAN_NO_PLAN;
}
