/*
 * The reach and the decision in C, to compare the library with: the same checks, and tables of greatest charges closed in the same way, so
 * that answers and charges are equal. The entries are REFERENCE_reach_start, REFERENCE_reach_switch and REFERENCE_decide, where the build
 * names REFERENCE. Search takes from it the mode that its cycle begins in, and the least credit and the least bound each decision.
 */
#include "closing.h"
#include "reference.h"

/* The tables of a closing, and with a set of peaks those of the decision, each with a word for each mode. */
enum { CLOSING_TABLES = 3, DECISION_TABLES };

/* A colour that every arc has. */
enum { EVERY_ARC = 1 << 7 };

/*
 * A table of greatest charges that is being closed: every charge in it is one with which its mode is reached. Rounds over the modes that
 * rose; then loops of the arcs by which modes rose are raised to their top at once, so that the time does not grow with the bound.
 */
struct closing {
    const struct model *m;
    const struct groups *groups;
    bool lasting;    /* arcs with a barred colour are left out */
    uint32_t leaves; /* colours: an arc with one of them leads to the later table */
    uint32_t *best;  /* the greatest charge of each mode plus 1, 0 for none */
    uint32_t *later; /* the same, of the arcs that lead there */
    uint32_t *by;    /* the arc by which a charge came plus 1, 0 for none */
    uint64_t due;    /* the modes that rose since their arcs were last tried */
};

/* A closing with its tables in these words. */
static struct closing start_closing(const struct model *m, const struct groups *groups, uint32_t *words)
{
    return (struct closing){.m = m, .groups = groups, .best = words, .later = words + m->modes, .by = words + 2 * m->modes};
}

/* A mode is reached with a charge over an arc. A full mode has no arc by which it came: no loop can raise it. */
static void reach_mode(struct closing *t, uint32_t mode, int32_t charge, size_t arc)
{
    if ((uint32_t)charge < t->best[mode])
        return;
    t->best[mode] = (uint32_t)charge + 1;
    t->by[mode] = (uint32_t)(charge == t->m->bound ? 0 : arc + 1);
    t->due |= (uint64_t)1 << mode;
}

/* The charge after a loop, whose last arc comes first, from a charge; below 0 where it is not possible. */
static int32_t walk_loop(const struct model *m, const uint8_t *loop, size_t length, int32_t charge)
{
    for (size_t i = length; i-- > 0 && charge >= 0;)
        charge = step(charge, m->draws[loop[i]], m->gains[loop[i]], m->bound);
    return charge;
}

/*
 * Where the arcs by which modes rose lead back to a mode, and the loop gains, it is walked from the bound, which gives its top, and once
 * more from the top, which raises the modes on it.
 */
static void raise_loop(struct closing *t, uint32_t mode)
{
    const struct model *m = t->m;
    uint8_t loop[CHARGEPLAN_MODES_MOST];
    size_t length = 0;
    uint32_t at = mode;

    do {
        if (t->by[at] == 0 || length == m->modes)
            return;
        loop[length] = (uint8_t)(t->by[at] - 1);
        at = m->sources[loop[length++]];
    } while (at != mode);
    if (walk_loop(m, loop, length, (int32_t)t->best[mode] - 1) < (int32_t)t->best[mode])
        return;
    int32_t charge = walk_loop(m, loop, length, m->bound);
    for (size_t i = length; i-- > 0;) {
        charge = step(charge, m->draws[loop[i]], m->gains[loop[i]], m->bound);
        reach_mode(t, m->targets[loop[i]], charge, loop[i]);
    }
}

/* Raises the loops to which the arcs lead by which the due modes rose. Each mode is passed once. */
static void raise_loops(struct closing *t)
{
    uint64_t passed = 0;

    for (uint64_t rest = t->due; rest != 0; rest &= rest - 1) {
        uint32_t mode = (uint32_t)__builtin_ctzll(rest);
        uint64_t path = 0;
        while (t->by[mode] != 0 && ((passed | path) >> mode & 1) == 0) {
            path |= (uint64_t)1 << mode;
            mode = t->m->sources[t->by[mode] - 1];
        }
        if ((path >> mode & 1) != 0)
            raise_loop(t, mode);
        passed |= path;
    }
}

/* Tries the arcs that leave a mode. */
static void try_arcs(struct closing *t, uint32_t mode)
{
    int32_t from = (int32_t)t->best[mode] - 1;

    for (size_t i = t->groups->first[mode]; i < t->groups->first[mode + 1]; i++) {
        const struct row *row = &t->groups->rows[i];
        int32_t charge = step(from, row->draw, row->gain, t->m->bound);
        if (charge < 0 || (t->lasting && row->barred))
            continue;
        if (((row->colours | EVERY_ARC) & t->leaves) == 0)
            reach_mode(t, row->target, charge, row->arc);
        else if ((uint32_t)charge >= t->later[row->target])
            t->later[row->target] = (uint32_t)charge + 1;
    }
}

/* Closes the table best, and makes the later one of it. */
static void close_table(struct closing *t)
{
    uint32_t modes = t->m->modes;

    memset(t->later, 0, modes * sizeof t->later[0]);
    memset(t->by, 0, modes * sizeof t->by[0]);
    t->due = 0;
    for (uint32_t mode = 0; mode < modes; mode++)
        t->due |= (uint64_t)(t->best[mode] != 0) << mode;
    while (t->due != 0) {
        for (uint64_t now = t->due; now != 0; now &= now - 1) {
            uint32_t mode = (uint32_t)__builtin_ctzll(now);
            t->due &= ~((uint64_t)1 << mode);
            try_arcs(t, mode);
        }
        raise_loops(t);
    }
}

/* The peaks: the greatest charge of each mode over arcs that are on. */
static void find_peaks(struct closing *t)
{
    memset(t->best, 0, t->m->modes * sizeof t->best[0]);
    t->best[t->m->start] = (uint32_t)t->m->credit + 1;
    t->lasting = false;
    t->leaves = 0;
    close_table(t);
}

/* The charges of a reach. */
static void find_charges(const struct model *m, uint16_t *charges)
{
    uint32_t words[CLOSING_TABLES * CHARGEPLAN_MODES_MOST];
    struct groups groups;
    struct closing t = start_closing(m, &groups, words);

    group(m, &groups);
    find_peaks(&t);
    memset(charges, 0xff, CHARGEPLAN_MODES_MOST * sizeof charges[0]);
    for (size_t s = 0; s < m->modes; s++)
        charges[s] = (uint16_t)(t.best[s] - 1);
}

struct chargeplan_reached PASTE(REFERENCE, _reach_start)(uint32_t n, uint32_t start, uint32_t k, const uint8_t *sources,
                                                         size_t sources_len, const uint8_t *targets, size_t targets_len,
                                                         const uint16_t *draws, size_t draws_len, const uint16_t *gains,
                                                         size_t gains_len, const uint8_t *colours, size_t colours_len,
                                                         const uint8_t *actions, size_t actions_len, uint32_t c, uint32_t b,
                                                         uint64_t on0, uint64_t on1, uint64_t on2, uint64_t on3)
{
    struct model m = {n,     start,   k,       sources_len, sources,    targets, draws,
                      gains, colours, actions, (int32_t)b,  (int32_t)c, 0,       {on0, on1, on2, on3}};
    struct chargeplan_reached reached = {.reach = {.on = {on0, on1, on2, on3}}};

    reached.answer = check_model(&m, targets_len, draws_len, gains_len, colours_len, actions_len);
    if (reached.answer == CHARGEPLAN_YES)
        reached.answer = check_levels(c, b, CHARGEPLAN_BOUND_MOST);
    if (reached.answer == CHARGEPLAN_YES)
        find_charges(&m, reached.reach.charges);
    else
        memset(reached.reach.charges, 0xff, sizeof reached.reach.charges);
    return reached;
}

struct chargeplan_reached PASTE(REFERENCE, _reach_switch)(struct chargeplan_reach reach, uint32_t n, uint32_t start, uint32_t k,
                                                          const uint8_t *sources, size_t sources_len, const uint8_t *targets,
                                                          size_t targets_len, const uint16_t *draws, size_t draws_len,
                                                          const uint16_t *gains, size_t gains_len, const uint8_t *colours,
                                                          size_t colours_len, const uint8_t *actions, size_t actions_len,
                                                          uint32_t c, uint32_t b, uint32_t arc, uint8_t on)
{
    struct model m = {n, start, k, sources_len, sources, targets, draws, gains, colours, actions, (int32_t)b, (int32_t)c, 0, {0}};
    struct chargeplan_reached reached = {check_model(&m, targets_len, draws_len, gains_len, colours_len, actions_len), reach};

    if (reached.answer == CHARGEPLAN_YES)
        reached.answer = check_levels(c, b, CHARGEPLAN_BOUND_MOST);
    if (reached.answer == CHARGEPLAN_YES && arc >= m.arcs)
        reached.answer = CHARGEPLAN_ARC_NUMBER;
    if (reached.answer != CHARGEPLAN_YES || is_on(reach.on, arc) == (on != 0))
        return reached;
    reached.reach.on[arc / 64] ^= (uint64_t)1 << arc % 64;
    memcpy(m.on, reached.reach.on, sizeof m.on);
    find_charges(&m, reached.reach.charges);
    return reached;
}

/*
 * From the charges of best, all at once, the greatest ones with which the modes are reached over arcs that last once every required colour
 * is met, one after the other. Where none is required every arc counts for one, so that a cycle has an arc.
 */
static void tour(struct closing *t, uint32_t duties)
{
    uint32_t levels = duties > 0 ? duties : 1;

    t->lasting = true;
    for (uint32_t level = 0; level < levels; level++) {
        t->leaves = duties > 0 ? 1U << level : EVERY_ARC;
        close_table(t);
        memcpy(t->best, t->later, t->m->modes * sizeof t->best[0]);
    }
    t->leaves = 0;
    close_table(t);
}

/* Whether peaks were taken out of a set, and whether some are left. */
struct sifting {
    bool changed;
    bool some;
};

/* Takes out of a set the peaks that best does not have again. */
static struct sifting sift(const struct closing *t, uint32_t *set)
{
    struct sifting sifting = {false, false};

    for (uint32_t mode = 0; mode < t->m->modes; mode++) {
        if (set[mode] > t->best[mode]) {
            set[mode] = 0;
            sifting.changed = true;
        }
        sifting.some |= set[mode] != 0;
    }
    return sifting;
}

/* Whether some required colour is on no arc that may stand in a cycle. */
static bool some_unmet(const struct closing *t, uint32_t duties)
{
    uint32_t all = (1u << duties) - 1;
    uint32_t met = 0;

    for (size_t i = 0; i < t->groups->first[t->m->modes]; i++)
        if (!t->groups->rows[i].barred)
            met |= t->groups->rows[i].colours;
    return (met & all) != all;
}

/*
 * Finds whether there is a plan. The set has all peaks at first; those that a tour from all of them does not come back to are taken out,
 * until it is empty or keeps all: then going back from peak to peak must come round, and that closed walk is a cycle.
 */
static bool find_kept(struct closing *t, uint32_t duties, uint32_t *set)
{
    size_t bytes = t->m->modes * sizeof set[0];

    if (some_unmet(t, duties)) {
        memset(set, 0, bytes);
        return false;
    }
    find_peaks(t);
    memcpy(set, t->best, bytes);
    for (;;) {
        memcpy(t->best, set, bytes);
        tour(t, duties);
        struct sifting sifting = sift(t, set);
        if (!sifting.changed || !sifting.some)
            return sifting.some;
    }
}

/* Whether a cycle keeps the peak of a mode: a tour from it alone. */
static bool keeps(struct closing *t, uint32_t duties, uint32_t mode, uint32_t peak)
{
    memset(t->best, 0, t->m->modes * sizeof t->best[0]);
    t->best[mode] = peak;
    tour(t, duties);
    return t->best[mode] >= peak;
}

uint32_t PASTE(REFERENCE, _first_kept)(const struct model *m, const struct groups *groups, int32_t *peak)
{
    uint32_t words[DECISION_TABLES * CHARGEPLAN_MODES_MOST], *set = words + CLOSING_TABLES * m->modes, duties = count_required(m), mode;
    struct closing t = start_closing(m, groups, words);

    if (!find_kept(&t, duties, set))
        return m->modes;
    for (mode = 0; mode < m->modes; mode++)
        if (set[mode] > 0 && keeps(&t, duties, mode, set[mode])) {
            *peak = (int32_t)set[mode] - 1;
            break;
        }
    return mode;
}

/* Whether there is a plan, with the tables in these words. */
static bool decide_in(const struct model *m, const struct groups *groups, uint32_t *words)
{
    struct closing t = start_closing(m, groups, words);

    return find_kept(&t, count_required(m), words + CLOSING_TABLES * m->modes);
}

bool PASTE(REFERENCE, _has_plan)(const struct model *m, const struct groups *groups)
{
    uint32_t words[DECISION_TABLES * CHARGEPLAN_MODES_MOST];

    return decide_in(m, groups, words);
}

uint64_t PASTE(REFERENCE, _decide)(uint32_t n, uint32_t start, uint32_t k, const uint8_t *sources, size_t sources_len,
                                   const uint8_t *targets, size_t targets_len, const uint16_t *draws, size_t draws_len,
                                   const uint16_t *gains, size_t gains_len, const uint8_t *colours, size_t colours_len,
                                   const uint8_t *actions, size_t actions_len, uint32_t c, uint32_t b, uint8_t barred,
                                   uint64_t on0, uint64_t on1, uint64_t on2, uint64_t on3, uint32_t *work, size_t work_len)
{
    struct model m = {n,     start,   k,       sources_len, sources,    targets, draws,
                      gains, colours, actions, (int32_t)b,  (int32_t)c, barred,  {on0, on1, on2, on3}};
    struct groups groups;
    uint64_t answer = check_model(&m, targets_len, draws_len, gains_len, colours_len, actions_len);

    if (answer == CHARGEPLAN_YES)
        answer = check_levels(c, b, CHARGEPLAN_DECIDE_BOUND_MOST);
    if (answer == CHARGEPLAN_YES && work_len < chargeplan_decide_words(n, k))
        answer = CHARGEPLAN_WORKING_SPACE;
    if (answer != CHARGEPLAN_YES)
        return answer;
    group(&m, &groups);
    answer = decide_in(&m, &groups, work) ? CHARGEPLAN_YES : CHARGEPLAN_NO_PLAN;
    memset(work, 0, work_len * sizeof work[0]);
    return answer;
}
