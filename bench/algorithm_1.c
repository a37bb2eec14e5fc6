/* Algorithm 1 of document 001 (section 4). The names of its functions stand beside ours. */
#include "model.h"
#include "rivals.h"

enum { NODES_MOST = CHARGEPLAN_COLOURS_MOST * CHARGEPLAN_MODES_MOST, EDGES_MOST = CHARGEPLAN_COLOURS_MOST * CHARGEPLAN_ARCS_MOST };

/* An edge of a graph whose nodes are modes or, in a degeneralised component, modes in levels. */
struct edge {
    uint16_t source;
    uint16_t target;
    uint16_t draw;
    uint16_t gain;
};

struct graph {
    int32_t bound;
    size_t nodes;  /* the nodes are numbered below this */
    size_t states; /* how many of these numbers are nodes */
    size_t count;
    struct edge edges[EDGES_MOST];
};

/* The greatest energy with which each node is reached from one of them, below 0 for none, and the edge over which it came. */
struct maxima {
    int32_t energy[NODES_MOST];
    int16_t by[NODES_MOST];
    bool changed[NODES_MOST]; /* since loops were last pumped */
};

static int32_t step_over(const struct graph *g, const struct edge *e, int32_t energy)
{
    return step(energy, e->draw, e->gain, g->bound);
}

/* ModBF: as many rounds over all edges as there are nodes, but none after one that changes nothing. Returns whether the last one did. */
static bool relax(const struct graph *g, struct maxima *x)
{
    bool changed = true;

    for (size_t round = 0; round < g->states && changed; round++) {
        changed = false;
        for (size_t i = 0; i < g->count; i++) {
            const struct edge *e = &g->edges[i];
            int32_t energy = step_over(g, e, x->energy[e->source]);
            if (energy > x->energy[e->target]) {
                x->energy[e->target] = energy;
                x->by[e->target] = (int16_t)i;
                x->changed[e->target] = changed = true;
            }
        }
    }
    return changed;
}

/* PumpLoop: from the bound twice round, which ends at the fixed point. */
static void pump_loop(const struct graph *g, struct maxima *x, size_t node)
{
    const struct edge *loop[NODES_MOST];
    size_t length = 0, at = node;
    int32_t energy = g->bound;

    do {
        loop[length] = &g->edges[x->by[at]];
        at = loop[length++]->source;
    } while (at != node);
    for (size_t i = length; i-- > 0;)
        energy = step_over(g, loop[i], energy);
    for (size_t i = length; i-- > 0;) {
        energy = step_over(g, loop[i], energy);
        x->energy[loop[i]->target] = energy;
        x->changed[loop[i]->target] = true;
    }
}

/* Whether the edge over which a node was reached would now raise it: then it is on a loop that gains, or behind one. */
static bool is_pumped(const struct graph *g, const struct maxima *x, size_t node)
{
    if (x->by[node] < 0)
        return false;
    const struct edge *e = &g->edges[x->by[node]];
    return step_over(g, e, x->energy[e->source]) > x->energy[node];
}

/* PumpAll: pumps the loops to which the edges lead back over which changed nodes were reached. Each node is passed once. */
static void pump_all(const struct graph *g, struct maxima *x)
{
    uint16_t passed[NODES_MOST] = {0}; /* on the way back from which node, plus 1 */

    for (size_t node = 0; node < g->nodes; node++) {
        size_t at = node;
        bool changed = x->changed[node];
        x->changed[node] = false;
        if (!changed || !is_pumped(g, x, node))
            continue;
        while (passed[at] == 0 && x->by[at] >= 0) {
            passed[at] = (uint16_t)(node + 1);
            at = g->edges[x->by[at]].source;
        }
        if (passed[at] == node + 1)
            pump_loop(g, x, at);
    }
}

/* FindMaxE. */
static void find_maxima(const struct graph *g, size_t from, int32_t energy, struct maxima *x)
{
    for (size_t node = 0; node < g->nodes; node++) {
        x->energy[node] = -1;
        x->by[node] = -1;
        x->changed[node] = false;
    }
    x->energy[from] = energy;
    while (relax(g, x))
        pump_all(g, x);
}

/* The greatest energy behind a back-edge, on a way from a node: below 0 for none. */
static int32_t find_way(const struct graph *g, const struct edge *back, size_t from, int32_t energy, struct maxima *x)
{
    find_maxima(g, from, energy, x);
    return step_over(g, back, x->energy[back->source]);
}

/* Lines 15 to 19: a cycle by the back-edge and a node that is full, of those that are so in a table. */
static bool has_full_cycle(const struct graph *g, const struct edge *back, const struct maxima *table)
{
    struct maxima x;

    for (size_t node = 0; node < g->nodes; node++) {
        if (table->energy[node] != g->bound)
            continue;
        int32_t energy = find_way(g, back, node, g->bound, &x);
        if (energy < 0)
            continue;
        find_maxima(g, back->target, energy, &x);
        if (x.energy[node] == g->bound)
            return true;
    }
    return false;
}

/* Lines 7 to 19: whether a cycle by the back-edge keeps its energy, of the peak of its target or, coming back with less, of that. */
static bool has_cycle(const struct graph *g, const struct edge *back, int32_t peak)
{
    struct maxima x;
    int32_t first = find_way(g, back, back->target, peak, &x);

    if (first < 0 || first >= peak)
        return first >= 0;
    int32_t second = find_way(g, back, back->target, first, &x);
    if (second < 0 || second >= first)
        return second >= 0;
    return has_full_cycle(g, back, &x);
}

static void add_edge(struct graph *g, size_t source, size_t target, const struct row *row)
{
    g->edges[g->count++] = (struct edge){(uint16_t)source, (uint16_t)target, row->draw, row->gain};
}

/* Line 2: the peaks, over all arcs that are on. */
static void find_peaks(const struct model *m, const struct groups *groups, int32_t *peaks)
{
    struct graph g = {.bound = m->bound, .nodes = m->modes, .states = m->modes, .count = 0};
    struct maxima x;

    for (size_t mode = 0; mode < m->modes; mode++)
        for (size_t i = groups->first[mode]; i < groups->first[mode + 1]; i++)
            add_edge(&g, mode, groups->rows[i].target, &groups->rows[i]);
    find_maxima(&g, m->start, m->credit, &x);
    memcpy(peaks, x.energy, m->modes * sizeof peaks[0]);
}

/* The search for components: the place at which each mode was found, counted from 1, and the modes that are in none yet. */
struct finding {
    const struct groups *groups;
    uint32_t place[CHARGEPLAN_MODES_MOST];
    uint32_t found;
    uint8_t open[CHARGEPLAN_MODES_MOST];
    size_t opened;
    uint8_t component[CHARGEPLAN_MODES_MOST]; /* of each mode, counted from 1, 0 for none yet */
    uint8_t components;
};

/* Finds the components of the modes behind a mode, over arcs that last; returns the lowest open place that a way leads to. */
static uint32_t find_components(struct finding *f, size_t mode)
{
    uint32_t lowest = f->place[mode] = ++f->found;

    f->open[f->opened++] = (uint8_t)mode;
    for (size_t i = f->groups->first[mode]; i < f->groups->first[mode + 1]; i++) {
        size_t target = f->groups->rows[i].target;
        if (f->groups->rows[i].barred || f->component[target] != 0)
            continue;
        uint32_t place = f->place[target] != 0 ? f->place[target] : find_components(f, target);
        if (place < lowest)
            lowest = place;
    }
    if (lowest == f->place[mode]) {
        f->components++;
        do
            f->component[f->open[--f->opened]] = f->components;
        while (f->open[f->opened] != mode);
    }
    return lowest;
}

/* Whether an arc may stand in a cycle in the component of the mode that it leaves. */
static bool is_inside(const struct finding *f, size_t mode, const struct row *row)
{
    return !row->barred && f->component[row->target] == f->component[mode];
}

/* Line 5: a component with a copy for each required colour, or one where none is; the edges from the last to the first come back. */
static size_t degeneralise(const struct model *m, const struct finding *f, size_t component, uint32_t duties, struct graph *g,
                           uint16_t *backs)
{
    uint32_t levels = duties > 0 ? duties : 1;
    size_t count = 0;

    *g = (struct graph){.bound = m->bound, .nodes = levels * m->modes, .states = 0, .count = 0};
    for (uint32_t level = 0; level < levels; level++)
        for (size_t mode = 0; mode < m->modes; mode++) {
            if (f->component[mode] != component)
                continue;
            g->states++;
            for (size_t i = f->groups->first[mode]; i < f->groups->first[mode + 1]; i++) {
                const struct row *row = &f->groups->rows[i];
                bool next = duties == 0 || (row->colours >> level & 1) != 0;
                if (!is_inside(f, mode, row))
                    continue;
                if (next && level + 1 == levels)
                    backs[count++] = (uint16_t)g->count;
                add_edge(g, level * m->modes + mode, (level + next) % levels * m->modes + row->target, row);
            }
        }
    return count;
}

/* Whether the arcs inside a component have all required colours. */
static bool is_accepting(const struct model *m, const struct finding *f, size_t component, uint32_t duties)
{
    uint32_t met = 0;

    for (size_t mode = 0; mode < m->modes; mode++)
        for (size_t i = f->groups->first[mode]; i < f->groups->first[mode + 1]; i++)
            if (f->component[mode] == component && is_inside(f, mode, &f->groups->rows[i]))
                met |= f->groups->rows[i].colours;
    return met == (1U << duties) - 1;
}

/* Lines 4 to 20. */
static bool has_lasso(const struct model *m, const struct finding *f, const int32_t *peaks)
{
    uint32_t duties = count_required(m);
    uint16_t backs[EDGES_MOST];
    struct graph g;

    for (size_t component = 1; component <= f->components; component++) {
        if (!is_accepting(m, f, component, duties))
            continue;
        size_t count = degeneralise(m, f, component, duties, &g, backs);
        for (size_t i = 0; i < count; i++)
            if (has_cycle(&g, &g.edges[backs[i]], peaks[g.edges[backs[i]].target]))
                return true;
    }
    return false;
}

uint64_t algorithm_1(const struct chargeplan_model *given, uint32_t c, uint32_t b, uint8_t barred, const uint64_t *on)
{
    struct model m = model_of(given, c, b, barred, on);
    int32_t peaks[CHARGEPLAN_MODES_MOST];
    struct groups groups;
    struct finding f = {.groups = &groups};

    group(&m, &groups);
    find_peaks(&m, &groups, peaks);
    for (size_t mode = 0; mode < m.modes; mode++)
        if (peaks[mode] >= 0 && f.component[mode] == 0)
            find_components(&f, mode);
    return has_lasso(&m, &f, peaks) ? CHARGEPLAN_YES : CHARGEPLAN_NO_PLAN;
}
