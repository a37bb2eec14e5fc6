#include "plain.h"

static struct verdict verdict(uint32_t number, uint32_t detail)
{
    struct verdict v = {number, detail};
    return v;
}

/* Ask 9: "with arc a at bit a mod 64 of word a / 64 rounded down". */
int plain_is_on(struct switches s, size_t a)
{
    return (s.on[a / 64] >> a % 64 & 1) != 0;
}

int plain_all_on(struct switches s, const uint8_t *arcs, size_t count)
{
    size_t i;

    for (i = 0; i < count; i++)
        if (!plain_is_on(s, arcs[i]))
            return 0;
    return 1;
}

static int unfit_lists(const struct model *m)
{
    size_t arcs = m->sources_length;

    if (m->targets_length != arcs || m->colours_length != arcs || m->actions_length != arcs || arcs > 255)
        return 1;
    return m->weights == NULL && (m->draws_length != arcs || m->gains_length != arcs);
}

/* By the ranges of draw and gain, or by the weight's. */
static int unfit_move(const struct model *m, size_t a)
{
    if (m->weights != NULL)
        return m->weights[a] < -10000 || m->weights[a] > 10000;
    return m->draws[a] > 10000 || m->gains[a] > 10000;
}

static int unfit_arc(const struct model *m, size_t a)
{
    return m->sources[a] >= m->n || m->targets[a] >= m->n || unfit_move(m, a) || m->colours[a] >> m->k != 0 || m->actions[a] > 15;
}

struct verdict plain_fitness(const struct model *m, uint32_t c, uint32_t b)
{
    size_t a;

    if (m->n == 0 || m->n > 64)
        return verdict(1, 0);
    if (m->start >= m->n)
        return verdict(2, 0);
    if (unfit_lists(m))
        return verdict(3, 0);
    if (m->k > 4)
        return verdict(4, 0);
    for (a = 0; a < m->sources_length; a++)
        if (unfit_arc(m, a))
            return verdict(5, (uint32_t)a);
    if (b > 8191 || c > b)
        return verdict(6, 0);
    return verdict(0, 0);
}

/* A step: the charge after it and what it loses at the bound, or charge -1 where it is not possible. */
struct step {
    int32_t charge;
    uint32_t lost;
};

static const struct step impossible = {-1, 0};

/* The smaller of a sum and the bound, and what the sum has above it. */
static struct step under_bound(uint32_t sum, uint32_t b)
{
    struct step s = {(int32_t)(sum < b ? sum : b), sum > b ? sum - b : 0};
    return s;
}

/* Document 01: possible where charge + weight is at least 0. */
static struct step weight_step(uint32_t charge, int32_t weight, uint32_t b)
{
    int32_t sum = (int32_t)charge + weight;

    return sum >= 0 ? under_bound((uint32_t)sum, b) : impossible;
}

/* Ask 4: possible where the charge is at least the draw. */
static struct step draw_step(uint32_t charge, uint32_t draw, uint32_t gain, uint32_t b)
{
    return charge >= draw ? under_bound(charge - draw + gain, b) : impossible;
}

static struct step step_on(const struct model *m, size_t a, uint32_t charge, uint32_t b)
{
    if (m->weights != NULL)
        return weight_step(charge, m->weights[a], b);
    return draw_step(charge, m->draws[a], m->gains[a], b);
}

/* 11 to 14. */
static struct verdict plain_shape(const struct model *m, uint32_t p, uint32_t q, const uint8_t *plan, size_t length)
{
    uint32_t mode = m->start, begin = m->start;
    size_t i;

    if (q == 0 || (uint64_t)p + q != length || length > 65535)
        return verdict(11, 0);
    for (i = 0; i < length; i++)
        if (plan[i] >= m->sources_length)
            return verdict(12, (uint32_t)i);
    for (i = 0; i < length; i++) {
        if (m->sources[plan[i]] != mode)
            return verdict(13, (uint32_t)i);
        if (i == p)
            begin = mode;
        mode = m->targets[plan[i]];
    }
    return mode == begin ? verdict(0, 0) : verdict(14, 0);
}

/* 15 and 16: prefix, first and second round, step by step. */
static struct verdict plain_charges(const struct model *m, uint32_t c, uint32_t b, uint32_t p, uint32_t q, const uint8_t *plan)
{
    int32_t charge = (int32_t)c, starts[3] = {0, 0, 0};
    uint64_t step, steps = (uint64_t)p + 2 * (uint64_t)q;

    for (step = 0; step < steps; step++) {
        uint64_t at = step < (uint64_t)p + q ? step : step - q;

        if (step == p)
            starts[0] = charge;
        if (step == (uint64_t)p + q)
            starts[1] = charge;
        charge = step_on(m, plan[at], (uint32_t)charge, b).charge;
        if (charge < 0)
            return verdict(15, (uint32_t)step);
    }
    starts[2] = charge;
    return starts[1] < starts[0] && starts[2] < starts[1] ? verdict(16, 0) : verdict(0, 0);
}

static int has_colour(uint32_t colours, uint32_t j)
{
    return (colours >> j & 1) != 0;
}

/* Ask 6: "A byte names these barred colours; its bits at or above k are ignored." */
static int is_barred(const struct model *m, uint32_t j)
{
    return j < m->k && has_colour(m->barred, j);
}

int plain_has_barred(const struct model *m, uint32_t colours)
{
    uint32_t j;

    for (j = 0; j < m->k; j++)
        if (is_barred(m, j) && has_colour(colours, j))
            return 1;
    return 0;
}

int plain_has_required(const struct model *m, uint32_t colours)
{
    uint32_t j;

    for (j = 0; j < m->k; j++)
        if (!is_barred(m, j) && !has_colour(colours, j))
            return 0;
    return 1;
}

/* 24: "the plan position of the round's first arc that has one". */
static struct verdict plain_barred(const struct model *m, uint32_t p, uint32_t q, const uint8_t *plan)
{
    uint32_t i;

    for (i = p; i < p + q; i++)
        if (plain_has_barred(m, m->colours[plan[i]]))
            return verdict(24, i);
    return verdict(0, 0);
}

/* 17: "17 and its detail pass over them". */
static struct verdict plain_colours(const struct model *m, uint32_t p, uint32_t q, const uint8_t *plan)
{
    uint32_t j, i;

    for (j = 0; j < m->k; j++) {
        int met = is_barred(m, j);

        for (i = 0; i < q; i++)
            met = met || has_colour(m->colours[plan[p + i]], j);
        if (!met)
            return verdict(17, j);
    }
    return verdict(0, 0);
}

struct verdict plain_judge(const struct model *m, uint32_t c, uint32_t b, uint32_t p, uint32_t q, const uint8_t *plan, size_t length)
{
    struct verdict v = plain_fitness(m, c, b);

    if (v.number == 0)
        v = plain_shape(m, p, q, plan, length);
    if (v.number == 0)
        v = plain_charges(m, c, b, p, q, plan);
    if (v.number == 0)
        v = plain_barred(m, p, q, plan);
    if (v.number == 0)
        v = plain_colours(m, p, q, plan);
    return v;
}

struct verdict plain_start(struct gauge *g, const struct model *m, uint32_t c, uint32_t b)
{
    static const struct gauge zero;
    struct verdict v = plain_fitness(m, c, b);

    *g = zero;
    if (v.number != 0)
        return v;
    g->mode = (uint8_t)m->start;
    g->charge = (uint16_t)c;
    g->modes = (uint8_t)m->n;
    g->arcs = (uint8_t)m->sources_length;
    g->bound = (uint16_t)b;
    return v;
}

struct verdict plain_step(struct gauge *g, const struct model *m, uint32_t b, uint32_t arc)
{
    struct verdict v = plain_fitness(m, g->charge, b);
    struct step s;

    if (v.number != 0)
        return v;
    if (g->modes != m->n || g->arcs != m->sources_length || g->bound != b)
        return verdict(22, 0);
    if (arc >= m->sources_length)
        return verdict(12, 0);
    if (m->sources[arc] != g->mode)
        return verdict(13, 0);
    s = step_on(m, arc, g->charge, b);
    if (s.charge < 0 || UINT64_MAX - g->spill < s.lost)
        return verdict(15, 0);
    g->mode = m->targets[arc];
    g->charge = (uint16_t)s.charge;
    g->spill += s.lost;
    return v;
}

struct outcome plain_walk(const struct model *m, uint32_t c, uint32_t b, uint32_t p, uint32_t q, const uint8_t *plan, size_t length,
    uint32_t j, uint16_t allowance)
{
    struct outcome o = {plain_judge(m, c, b, p, q, plan, length), 0, 0};
    struct gauge g;

    if (o.verdict.number == 0 && j >= m->k)
        o.verdict = verdict(18, 0);
    if (o.verdict.number == 0)
        o.verdict = plain_start(&g, m, c, b);
    while (o.verdict.number == 0 && o.steps < allowance && !o.met) {
        uint8_t arc = plan[o.steps < p ? o.steps : p + (o.steps - p) % q];

        o.verdict = plain_step(&g, m, b, arc);
        o.met = m->colours[arc] >> j & 1;
        o.steps++;
    }
    return o;
}

struct warded plain_ward(const struct model *m, struct wearer *wearers, size_t count, uint32_t p, uint32_t q, const uint8_t *plan,
    size_t length)
{
    struct model own = *m;
    struct warded answer = {0, 0};
    struct verdict v;
    size_t i;

    /* With start mode 0 and these levels neither 2 nor 6 applies, but where 1 does. */
    own.start = 0;
    v = plain_fitness(&own, 0, 0);
    if (v.number != 0) {
        answer.number = v.number;
        answer.detail = v.detail;
        return answer;
    }
    for (i = 0; i < count; i++) {
        own.start = wearers[i].start;
        wearers[i].verdict = (uint8_t)plain_judge(&own, wearers[i].c, wearers[i].b, p, q, plan, length).number;
    }
    for (i = count; i-- > 0;)
        if (wearers[i].verdict != 0) {
            answer.number = wearers[i].verdict;
            answer.detail = i;
        }
    return answer;
}

int plain_pair_after(const struct model *m, uint32_t b, uint32_t pair, size_t a)
{
    int32_t charge = step_on(m, a, pair % (b + 1), b).charge;

    if (m->sources[a] != pair / (b + 1) || charge < 0)
        return -1;
    return m->targets[a] * (int)(b + 1) + charge;
}

int plain_may_stand(enum part part, const struct model *m, size_t a)
{
    return plain_is_on(m->switches, a) && (part == PREFIX || !plain_has_barred(m, m->colours[a]));
}

/* The same, and -1 where the arc may not stand in this part. */
static int pair_in(enum part part, const struct model *m, uint32_t b, uint32_t pair, size_t a)
{
    return plain_may_stand(part, m, a) ? plain_pair_after(m, b, pair, a) : -1;
}

/* reach[x]: the pairs that are reached from pair x by one arc or more of this part, a bit for each. */
static void close_pairs(enum part part, const struct model *m, uint32_t b, uint32_t pairs, uint64_t *reach)
{
    uint32_t x, y;
    size_t a;

    for (x = 0; x < pairs; x++) {
        reach[x] = 0;
        for (a = 0; a < m->sources_length; a++) {
            int to = pair_in(part, m, b, x, a);

            if (to >= 0)
                reach[x] |= (uint64_t)1 << to;
        }
    }
    for (y = 0; y < pairs; y++)
        for (x = 0; x < pairs; x++)
            if (reach[x] >> y & 1)
                reach[x] |= reach[y];
}

/* The colours on a cycle's arcs that lead from the pairs between which and x there are walks of such arcs both ways to such pairs. */
static uint32_t colours_around(const struct model *m, uint32_t b, uint32_t pairs, const uint64_t *reach, uint32_t x)
{
    uint32_t y, met = 0;
    size_t a;

    for (y = 0; y < pairs; y++)
        for (a = 0; a < m->sources_length; a++) {
            int to = pair_in(CYCLE, m, b, y, a);

            if (to >= 0 && (reach[x] >> y & 1) && (reach[to] >> x & 1))
                met |= m->colours[a];
        }
    return met;
}

/*
 * In a plan the pair at the beginning of a round comes again, since there are few pairs; so there is a plan exactly where from some
 * pair within reach a walk of one arc or more that are on, without a barred colour, leads back to it and meets every required colour.
 */
int plain_has_plan(const struct model *m, uint32_t c, uint32_t b)
{
    uint64_t reach[PLAIN_PAIRS_MOST], round[PLAIN_PAIRS_MOST];
    uint32_t pairs = m->n * (b + 1), first = m->start * (b + 1) + c, x;

    close_pairs(PREFIX, m, b, pairs, reach);
    close_pairs(CYCLE, m, b, pairs, round);
    for (x = 0; x < pairs; x++)
        if ((x == first || (reach[first] >> x & 1)) && (round[x] >> x & 1)
            && plain_has_required(m, colours_around(m, b, pairs, round, x)))
            return 1;
    return 0;
}
