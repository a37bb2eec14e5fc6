/*
 * Search, judging, the join and the ward in C, to compare the library with: the same checks, passes and scans in the same order, the arcs
 * grouped by source, so that answers, plans and verdicts are equal. The entries are REFERENCE_search, REFERENCE_judge, REFERENCE_join and
 * REFERENCE_ward, where the build names REFERENCE. The reach and the decision are in closing.c, the least credit and the least bound in
 * least.c.
 */
#include "closing.h"
#include "reference.h"

enum { NODES_MOST = (CHARGEPLAN_COLOURS_MOST + 1) * CHARGEPLAN_MODES_MOST };

/* An entry of the queue in the working space: its words. */
enum { NODE, CHARGE, PARENT, ARC, ENTRY_WORDS };

/*
 * A pass over the levels 0 to last; a node is a level and a mode. It stops at the node goal with the charge least or more. One for a cycle
 * leaves out the arcs with a barred colour.
 */
struct pass {
    struct groups groups;
    uint32_t duties; /* the number of required colours */
    bool lasting;
    uint32_t last;
    uint32_t goal;
    int32_t least;
    uint16_t best[NODES_MOST]; /* the greatest charge of each node plus 1, 0 for none */
    uint16_t *queue;
    size_t head; /* the entry at which it stopped */
    uint8_t arc; /* the arc by which it stopped */
    size_t tail; /* the number of entries */
};

/* Refusals 7 to 9. */
static uint64_t check_spaces(uint32_t n, uint32_t k, uint32_t b, size_t work_len, size_t plan_len)
{
    size_t room = (size_t)n * (b + 1);
    if (room > CHARGEPLAN_PRODUCT_MOST)
        return CHARGEPLAN_PRODUCT;
    if (work_len < ENTRY_WORDS * (k + 1) * room)
        return CHARGEPLAN_WORKING_SPACE;
    if (plan_len < (k + 2) * room)
        return CHARGEPLAN_PLAN_BUFFER;
    return CHARGEPLAN_YES;
}

static void push(struct pass *pass, uint32_t node, int32_t charge, size_t parent, uint8_t arc)
{
    uint16_t *entry = pass->queue + ENTRY_WORDS * pass->tail;
    entry[NODE] = (uint16_t)node;
    entry[CHARGE] = (uint16_t)charge;
    entry[PARENT] = (uint16_t)parent;
    entry[ARC] = arc;
    pass->best[node] = (uint16_t)(charge + 1);
    pass->tail++;
}

/* Tries every arc that leaves the mode of an entry. Returns true where one stops the pass. */
static bool expand(const struct model *m, struct pass *pass, size_t head)
{
    const uint16_t *entry = pass->queue + ENTRY_WORDS * head;
    uint32_t level = entry[NODE] / m->modes;
    uint32_t mode = entry[NODE] % m->modes;
    int32_t from = entry[CHARGE];
    const struct row *row = pass->groups.rows + pass->groups.first[mode];
    const struct row *end = pass->groups.rows + pass->groups.first[mode + 1];

    for (; row < end; row++) {
        if (pass->lasting && row->barred)
            continue;
        int32_t charge = step(from, row->draw, row->gain, m->bound);
        if (charge < 0)
            continue;
        uint32_t node = next_level(level, pass->last, row->colours) * m->modes + row->target;
        if (node == pass->goal && charge >= pass->least) {
            pass->head = head;
            pass->arc = row->arc;
            return true;
        }
        if (charge >= pass->best[node])
            push(pass, node, charge, head, row->arc);
    }
    return false;
}

/* Runs a pass from a node with a charge. Entries for whose node a greater charge is known are skipped. */
static void run_pass(const struct model *m, struct pass *pass, uint32_t node, int32_t charge)
{
    memset(pass->best, 0, (pass->last + 1) * m->modes * sizeof pass->best[0]);
    pass->tail = 0;
    push(pass, node, charge, 0, 0);
    for (size_t head = 0; head < pass->tail; head++) {
        const uint16_t *entry = pass->queue + ENTRY_WORDS * head;
        if (pass->best[entry[NODE]] == entry[CHARGE] + 1 && expand(m, pass, head))
            return;
    }
}

/* The pass for the peaks, the greatest charges of the modes: over one level, and no charge stops it. */
static void find_peaks(const struct model *m, struct pass *pass)
{
    pass->lasting = false;
    pass->last = 0;
    pass->goal = 0;
    pass->least = m->bound + 1;
    run_pass(m, pass, m->start, m->credit);
}

/*
 * The pass from a mode with a charge, over a level for each required colour and one more, that stops where an arc comes back to the mode in
 * the last level with that charge or more.
 */
static void find_cycle(const struct model *m, struct pass *pass, uint32_t mode, int32_t charge)
{
    pass->lasting = true;
    pass->last = pass->duties;
    pass->goal = pass->duties * m->modes + mode;
    pass->least = charge;
    run_pass(m, pass, mode, charge);
}

/* Writes the arcs that lead to an entry, and returns their number. */
static size_t trace(const uint16_t *queue, size_t i, uint8_t *plan)
{
    size_t length = 0;
    for (size_t j = i; j > 0; j = queue[ENTRY_WORDS * j + PARENT])
        length++;
    for (size_t at = length; i > 0; i = queue[ENTRY_WORDS * i + PARENT])
        plan[--at] = (uint8_t)queue[ENTRY_WORDS * i + ARC];
    return length;
}

/* Writes a prefix to a mode with its peak, and returns its length. */
static size_t write_prefix(const struct model *m, struct pass *pass, uint32_t mode, int32_t peak, uint8_t *plan)
{
    find_peaks(m, pass);
    size_t i = 0;
    while (pass->queue[ENTRY_WORDS * i + NODE] != mode || pass->queue[ENTRY_WORDS * i + CHARGE] != peak)
        i++;
    return trace(pass->queue, i, plan);
}

/* Writes a cycle from a mode that keeps a charge, and returns its length. */
static size_t write_cycle(const struct model *m, struct pass *pass, uint32_t mode, int32_t charge, uint8_t *part)
{
    find_cycle(m, pass, mode, charge);
    size_t length = trace(pass->queue, pass->head, part);
    part[length] = pass->arc;
    return length + 1;
}

/* A plan from the first mode whose peak a cycle keeps, or that there is none: that is decided first, and the passes only write the plan. */
static uint64_t find_plan(const struct model *m, uint16_t *work, uint8_t *plan)
{
    struct pass pass;
    int32_t peak = 0;

    group(m, &pass.groups);
    pass.duties = count_required(m);
    pass.queue = work;
    uint32_t mode = PASTE(REFERENCE, _first_kept)(m, &pass.groups, &peak);
    if (mode == m->modes)
        return CHARGEPLAN_NO_PLAN;
    size_t p = write_prefix(m, &pass, mode, peak, plan);
    size_t q = write_cycle(m, &pass, mode, peak, plan + p);
    return (uint64_t)p << 32 | (uint64_t)q << 48;
}

uint64_t PASTE(REFERENCE, _search)(uint32_t n, uint32_t start, uint32_t k, const uint8_t *sources, size_t sources_len,
                                   const uint8_t *targets, size_t targets_len, const uint16_t *draws, size_t draws_len,
                                   const uint16_t *gains, size_t gains_len, const uint8_t *colours, size_t colours_len,
                                   const uint8_t *actions, size_t actions_len, uint32_t c, uint32_t b, uint8_t barred,
                                   uint64_t on0, uint64_t on1, uint64_t on2, uint64_t on3, uint16_t *work, size_t work_len,
                                   uint8_t *plan, size_t plan_len)
{
    struct model m = {n,     start,   k,       sources_len, sources,    targets, draws,
                      gains, colours, actions, (int32_t)b,  (int32_t)c, barred,  {on0, on1, on2, on3}};
    uint64_t answer = check_model(&m, targets_len, draws_len, gains_len, colours_len, actions_len);

    if (answer == CHARGEPLAN_YES)
        answer = check_levels(c, b, CHARGEPLAN_BOUND_MOST);
    if (answer == CHARGEPLAN_YES)
        answer = check_spaces(n, k, b, work_len, plan_len);
    if (answer != CHARGEPLAN_YES)
        return answer;
    answer = find_plan(&m, work, plan);
    memset(work, 0, work_len * sizeof work[0]);
    return answer;
}

/* Refusal 11. */
static uint64_t check_length(uint32_t p, uint32_t q, size_t length)
{
    return q == 0 || (uint64_t)p + q != length || length > CHARGEPLAN_PLAN_MOST ? CHARGEPLAN_PLAN_LENGTH : CHARGEPLAN_YES;
}

/* Refusals 12 and 13 where the arc at a position leaves another mode: 12 in the rest of the plan comes first. */
static uint64_t other_mode(const struct model *m, const uint8_t *plan, size_t length, size_t at)
{
    for (size_t i = at + 1; i < length; i++)
        if (plan[i] >= m->arcs)
            return refused(CHARGEPLAN_ARC_NUMBER, i);
    return refused(CHARGEPLAN_OTHER_MODE, at);
}

/* Refusals 12 to 14. */
static uint64_t check_path(const struct model *m, const uint8_t *plan, size_t length, size_t p)
{
    uint32_t mode = m->start;

    for (size_t i = 0; i < length; i++) {
        uint8_t arc = plan[i];
        if (arc >= m->arcs)
            return refused(CHARGEPLAN_ARC_NUMBER, i);
        if (m->sources[arc] != mode)
            return other_mode(m, plan, length, i);
        mode = m->targets[arc];
    }
    return m->sources[plan[p]] != mode ? CHARGEPLAN_OPEN_CYCLE : CHARGEPLAN_YES;
}

/* Walks arcs from a charge to the charge at their end. Returns the number of steps made: less than all where one is not possible. */
static size_t walk(const struct model *m, const uint8_t *arcs, size_t count, int32_t *charge)
{
    int32_t reached = *charge;

    for (size_t i = 0; i < count; i++) {
        reached = step(reached, m->draws[arcs[i]], m->gains[arcs[i]], m->bound);
        if (reached < 0)
            return i;
    }
    *charge = reached;
    return count;
}

/* Refusals 15 and 16: the prefix, and two rounds of the cycle. A first round that ends no lower than it began decides. */
static uint64_t check_charges(const struct model *m, const uint8_t *plan, size_t p, size_t q)
{
    int32_t charge = m->credit;
    size_t steps = walk(m, plan, p, &charge);
    if (steps < p)
        return refused(CHARGEPLAN_IMPOSSIBLE_STEP, steps);
    for (size_t round = 0; round < 2; round++) {
        int32_t before = charge;
        steps = walk(m, plan + p, q, &charge);
        if (steps < q)
            return refused(CHARGEPLAN_IMPOSSIBLE_STEP, p + round * q + steps);
        if (charge >= before)
            return CHARGEPLAN_YES;
    }
    return CHARGEPLAN_FALLING_CYCLE;
}

/* Refusal 24. Where nothing is barred no arc is looked at. */
static uint64_t check_barred(const struct model *m, const uint8_t *plan, size_t p, size_t q)
{
    if (m->barred == 0)
        return CHARGEPLAN_YES;
    for (size_t i = p; i < p + q; i++)
        if ((m->colours[plan[i]] & m->barred) != 0)
            return refused(CHARGEPLAN_BARRED_COLOUR, i);
    return CHARGEPLAN_YES;
}

/* Refusal 17. The barred colours are passed over: they count as met from the beginning. */
static uint64_t check_colours(const struct model *m, const uint8_t *cycle, size_t q)
{
    uint32_t all = (1U << m->levels) - 1;
    uint32_t met = m->barred & all;
    uint32_t missing = 0;

    for (size_t i = 0; i < q && met != all; i++)
        met |= m->colours[cycle[i]];
    if (met == all)
        return CHARGEPLAN_YES;
    while ((met >> missing & 1) != 0)
        missing++;
    return refused(CHARGEPLAN_MISSING_COLOUR, missing);
}

uint64_t PASTE(REFERENCE, _judge)(uint32_t n, uint32_t start, uint32_t k, const uint8_t *sources, size_t sources_len,
                                  const uint8_t *targets, size_t targets_len, const uint16_t *draws, size_t draws_len,
                                  const uint16_t *gains, size_t gains_len, const uint8_t *colours, size_t colours_len,
                                  const uint8_t *actions, size_t actions_len, uint32_t c, uint32_t b, uint8_t barred, uint32_t p,
                                  uint32_t q, const uint8_t *plan, size_t plan_len)
{
    struct model m = {n, start, k, sources_len, sources, targets, draws, gains, colours, actions, (int32_t)b, (int32_t)c, barred, {0}};
    uint64_t answer = check_model(&m, targets_len, draws_len, gains_len, colours_len, actions_len);

    if (answer == CHARGEPLAN_YES)
        answer = check_levels(c, b, CHARGEPLAN_BOUND_MOST);
    if (answer == CHARGEPLAN_YES)
        answer = check_length(p, q, plan_len);
    if (answer == CHARGEPLAN_YES)
        answer = check_path(&m, plan, plan_len, p);
    if (answer == CHARGEPLAN_YES)
        answer = check_charges(&m, plan, p, q);
    if (answer == CHARGEPLAN_YES)
        answer = check_barred(&m, plan, p, q);
    if (answer == CHARGEPLAN_YES)
        answer = check_colours(&m, plan + p, q);
    return answer;
}

/* The model is checked once before the wearers, and once more for each of them, by judging. */
struct chargeplan_warded PASTE(REFERENCE, _ward)(struct chargeplan_wearer *wearers, size_t wearers_len, uint32_t n, uint32_t k,
                                                 const uint8_t *sources, size_t sources_len, const uint8_t *targets,
                                                 size_t targets_len, const uint16_t *draws, size_t draws_len, const uint16_t *gains,
                                                 size_t gains_len, const uint8_t *colours, size_t colours_len,
                                                 const uint8_t *actions, size_t actions_len, uint8_t barred, uint32_t p, uint32_t q,
                                                 const uint8_t *plan, size_t plan_len)
{
    struct model m = {n, 0, k, sources_len, sources, targets, draws, gains, colours, actions, 0, 0, 0, {0}};
    uint64_t answer = check_model(&m, targets_len, draws_len, gains_len, colours_len, actions_len);
    struct chargeplan_warded warded = {(uint8_t)chargeplan_number(answer), chargeplan_detail(answer)};

    if (answer != CHARGEPLAN_YES)
        return warded;
    for (size_t i = 0; i < wearers_len; i++) {
        struct chargeplan_wearer *w = &wearers[i];
        answer = PASTE(REFERENCE, _judge)(n, w->start, k, sources, sources_len, targets, targets_len, draws, draws_len, gains,
                                          gains_len, colours, colours_len, actions, actions_len, w->c, w->b, barred, p, q, plan,
                                          plan_len);
        w->verdict = (uint8_t)chargeplan_number(answer);
        if (w->verdict != CHARGEPLAN_YES && warded.number == CHARGEPLAN_YES) {
            warded.number = w->verdict;
            warded.detail = i;
        }
    }
    return warded;
}

/* How many pairs of arcs have equal actions, and whether one of them draws or gains too much together. */
struct tally {
    size_t count;
    bool heavy;
};

/* The first pass of the join: it counts and checks. */
static struct tally count_pairs(const struct model *knee, const struct model *habit)
{
    struct tally tally = {0, false};

    for (size_t i = 0; i < knee->arcs; i++)
        for (size_t j = 0; j < habit->arcs; j++) {
            if (knee->actions[i] != habit->actions[j])
                continue;
            tally.count++;
            if (knee->draws[i] + habit->draws[j] > (int32_t)CHARGEPLAN_DRAW_MOST ||
                knee->gains[i] + habit->gains[j] > (int32_t)CHARGEPLAN_GAIN_MOST)
                tally.heavy = true;
        }
    return tally;
}

/* Refusal 23. */
static uint64_t check_join(const struct model *knee, const struct model *habit, size_t room)
{
    if (knee->modes * habit->modes > CHARGEPLAN_MODES_MOST || knee->levels + habit->levels > CHARGEPLAN_COLOURS_MOST)
        return CHARGEPLAN_JOIN_SIZE;
    struct tally tally = count_pairs(knee, habit);
    return tally.count > CHARGEPLAN_ARCS_MOST || tally.heavy || tally.count > room ? CHARGEPLAN_JOIN_SIZE : CHARGEPLAN_YES;
}

/* The lists that the join fills. */
struct joined {
    uint8_t *sources;
    uint8_t *targets;
    uint16_t *draws;
    uint16_t *gains;
    uint8_t *colours;
    uint8_t *actions;
};

/* The second pass writes the joined arcs, and returns their number. */
static uint32_t write_pairs(const struct model *knee, const struct model *habit, struct joined to)
{
    uint32_t at = 0;

    for (size_t i = 0; i < knee->arcs; i++)
        for (size_t j = 0; j < habit->arcs; j++) {
            if (knee->actions[i] != habit->actions[j])
                continue;
            to.sources[at] = (uint8_t)(knee->sources[i] * habit->modes + habit->sources[j]);
            to.targets[at] = (uint8_t)(knee->targets[i] * habit->modes + habit->targets[j]);
            to.draws[at] = (uint16_t)(knee->draws[i] + habit->draws[j]);
            to.gains[at] = (uint16_t)(knee->gains[i] + habit->gains[j]);
            to.colours[at] = (uint8_t)(knee->colours[i] | habit->colours[j] << knee->levels);
            to.actions[at] = knee->actions[i];
            at++;
        }
    return at;
}

static size_t smaller(size_t a, size_t b)
{
    return a < b ? a : b;
}

struct chargeplan_reading PASTE(REFERENCE, _join)(
    uint32_t n1, uint32_t start1, uint32_t k1, const uint8_t *sources1, size_t sources1_len, const uint8_t *targets1,
    size_t targets1_len, const uint16_t *draws1, size_t draws1_len, const uint16_t *gains1, size_t gains1_len,
    const uint8_t *colours1, size_t colours1_len, const uint8_t *actions1, size_t actions1_len, uint32_t n2, uint32_t start2,
    uint32_t k2, const uint8_t *sources2, size_t sources2_len, const uint8_t *targets2, size_t targets2_len,
    const uint16_t *draws2, size_t draws2_len, const uint16_t *gains2, size_t gains2_len, const uint8_t *colours2,
    size_t colours2_len, const uint8_t *actions2, size_t actions2_len, uint8_t *sources, size_t sources_len, uint8_t *targets,
    size_t targets_len, uint16_t *draws, size_t draws_len, uint16_t *gains, size_t gains_len, uint8_t *colours,
    size_t colours_len, uint8_t *actions, size_t actions_len)
{
    struct model knee = {n1, start1, k1, sources1_len, sources1, targets1, draws1, gains1, colours1, actions1, 0, 0, 0, {0}};
    struct model habit = {n2, start2, k2, sources2_len, sources2, targets2, draws2, gains2, colours2, actions2, 0, 0, 0, {0}};
    struct joined to = {sources, targets, draws, gains, colours, actions};
    struct chargeplan_reading reading = {CHARGEPLAN_YES, 0, 0, 0, 0, 0};
    size_t room = smaller(smaller(sources_len, targets_len), smaller(smaller(draws_len, gains_len), smaller(colours_len, actions_len)));
    uint64_t answer = check_model(&knee, targets1_len, draws1_len, gains1_len, colours1_len, actions1_len);

    if (answer == CHARGEPLAN_YES)
        answer = check_model(&habit, targets2_len, draws2_len, gains2_len, colours2_len, actions2_len);
    if (answer == CHARGEPLAN_YES)
        answer = check_join(&knee, &habit, room);
    if (answer != CHARGEPLAN_YES) {
        reading.number = (uint8_t)chargeplan_number(answer);
        reading.detail = chargeplan_detail(answer);
        return reading;
    }
    reading.n = n1 * n2;
    reading.start = start1 * n2 + start2;
    reading.k = k1 + k2;
    reading.m = write_pairs(&knee, &habit, to);
    return reading;
}
