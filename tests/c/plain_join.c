#include "plain_join.h"

static struct reading answer(uint32_t number, uint32_t detail)
{
    struct reading r = {number, detail, 0, 0, 0, 0};
    return r;
}

/* "the habit's colour j becomes the knee's k plus j". */
static uint32_t joined_colours(uint32_t of_knee, uint32_t k, uint32_t of_habit)
{
    uint32_t colours = of_knee, j;

    for (j = 0; j < 4; j++)
        if (of_habit >> j & 1)
            colours |= 1u << (k + j);
    return colours;
}

/* "The joined mode of i and j is i * n2 + j"; "it keeps their action; draws and gains are added". */
static struct arc joined_arc(const struct model *knee, size_t i, const struct model *habit, size_t j)
{
    struct arc arc;

    arc.source = knee->sources[i] * habit->n + habit->sources[j];
    arc.target = knee->targets[i] * habit->n + habit->targets[j];
    arc.draw = (uint32_t)knee->draws[i] + habit->draws[j];
    arc.gain = (uint32_t)knee->gains[i] + habit->gains[j];
    arc.colours = joined_colours(knee->colours[i], knee->k, habit->colours[j]);
    arc.action = knee->actions[i];
    return arc;
}

/* "For each pair of arcs with equal action, knee's arc outermost, there is one joined arc". All of them; how many they are. */
static size_t all_joined(const struct model *knee, const struct model *habit, struct arc *to)
{
    size_t count = 0, i, j;

    for (i = 0; i < knee->sources_length; i++)
        for (j = 0; j < habit->sources_length; j++)
            if (knee->actions[i] == habit->actions[j])
                to[count++] = joined_arc(knee, i, habit, j);
    return count;
}

static int too_great(const struct arc *arcs, size_t count)
{
    size_t a;

    for (a = 0; a < count; a++)
        if (arcs[a].draw > 10000 || arcs[a].gain > 10000)
            return 1;
    return 0;
}

struct reading plain_join(const struct model *knee, const struct model *habit, size_t room, struct arc arcs[FILLED_ARCS_MOST])
{
    static struct arc all[FILLED_ARCS_MOST * FILLED_ARCS_MOST];
    /* Of credit and bound 0 the levels are right. */
    struct verdict of_knee = plain_fitness(knee, 0, 0), of_habit = plain_fitness(habit, 0, 0);
    struct reading r = answer(0, 0);
    size_t count, a;

    if (of_knee.number != 0)
        return answer(of_knee.number, of_knee.detail);
    if (of_habit.number != 0)
        return answer(of_habit.number, of_habit.detail);
    count = all_joined(knee, habit, all);
    if (knee->n * habit->n > 64 || count > 255 || knee->k + habit->k > 4 || too_great(all, count) || count > room)
        return answer(23, 0);
    r.n = knee->n * habit->n;
    r.start = knee->start * habit->n + habit->start;
    r.k = knee->k + habit->k;
    r.m = (uint32_t)count;
    for (a = 0; a < count; a++)
        arcs[a] = all[a];
    return r;
}

/* It begins in the start mode, each arc leaves the mode that the one before entered, and the cycle ends in the mode where it began. */
static int is_plan(const struct model *m, uint32_t p, uint32_t q, const uint8_t *plan)
{
    uint32_t mode = m->start, begin = m->start, i;

    for (i = 0; i < p + q; i++) {
        if (plan[i] >= m->sources_length || m->sources[plan[i]] != mode)
            return 0;
        if (i == p)
            begin = mode;
        mode = m->targets[plan[i]];
    }
    return q > 0 && mode == begin;
}

static int same_actions(const struct model *knee, const struct model *habit, struct plans plans)
{
    uint32_t i;

    for (i = 0; i < plans.p + plans.q; i++)
        if (knee->actions[plans.knee[i]] != habit->actions[plans.habit[i]])
            return 0;
    return 1;
}

/* The charge after both draw and then both gain; -1 where the draws are too great. */
static int32_t charge_after(const struct model *knee, size_t i, const struct model *habit, size_t j, int32_t charge, uint32_t b)
{
    int32_t draw = knee->draws[i] + habit->draws[j], gain = knee->gains[i] + habit->gains[j], sum = charge - draw + gain;

    if (charge < draw)
        return -1;
    return sum < (int32_t)b ? sum : (int32_t)b;
}

/* Every step is possible in b + 2 rounds. Of the charges at their beginnings two are equal then, and so every step is in all rounds. */
static int keeps_charge(const struct model *knee, const struct model *habit, uint32_t c, uint32_t b, struct plans plans)
{
    int32_t charge = (int32_t)c;
    uint64_t steps = plans.p + (uint64_t)plans.q * (b + 2), step;

    for (step = 0; step < steps && charge >= 0; step++) {
        uint64_t at = step < plans.p ? step : plans.p + (step - plans.p) % plans.q;

        charge = charge_after(knee, plans.knee[at], habit, plans.habit[at], charge, b);
    }
    return charge >= 0;
}

static int keeps_colours(const struct model *m, const uint8_t *cycle, uint32_t q)
{
    uint32_t met = 0, i;

    for (i = 0; i < q; i++)
        met |= m->colours[cycle[i]];
    return plain_has_required(m, met) && !plain_has_barred(m, met);
}

int plain_together(const struct model *knee, const struct model *habit, uint32_t c, uint32_t b, struct plans plans)
{
    return is_plan(knee, plans.p, plans.q, plans.knee) && is_plan(habit, plans.p, plans.q, plans.habit)
        && same_actions(knee, habit, plans) && keeps_charge(knee, habit, c, b, plans)
        && keeps_colours(knee, plans.knee + plans.p, plans.q) && keeps_colours(habit, plans.habit + plans.p, plans.q);
}

/* A step of both from one triple to another, and the colours that it meets. */
struct step {
    uint32_t from, to, of_knee, of_habit;
};

/* All of them: one from each triple by each pair of arcs at most. */
struct steps {
    struct step at[PLAIN_TRIPLES_MOST * PLAIN_TRIPLES_ARCS_MOST * PLAIN_TRIPLES_ARCS_MOST];
    size_t count;
};

static uint32_t triple(const struct model *habit, uint32_t b, uint32_t i, uint32_t j, uint32_t charge)
{
    return (i * habit->n + j) * (b + 1) + charge;
}

/* Adds the steps by a pair of arcs, one for each charge from which they are possible. */
static void add_steps(struct steps *to, const struct model *knee, size_t i, const struct model *habit, size_t j, uint32_t b)
{
    uint32_t charge;

    for (charge = 0; charge <= b; charge++) {
        int32_t after = charge_after(knee, i, habit, j, (int32_t)charge, b);
        struct step s;

        if (after < 0)
            continue;
        s.from = triple(habit, b, knee->sources[i], habit->sources[j], charge);
        s.to = triple(habit, b, knee->targets[i], habit->targets[j], (uint32_t)after);
        s.of_knee = knee->colours[i];
        s.of_habit = habit->colours[j];
        to->at[to->count++] = s;
    }
}

static void find_steps(struct steps *to, const struct model *knee, const struct model *habit, uint32_t b)
{
    size_t i, j;

    to->count = 0;
    for (i = 0; i < knee->sources_length; i++)
        for (j = 0; j < habit->sources_length; j++)
            if (knee->actions[i] == habit->actions[j])
                add_steps(to, knee, i, habit, j, b);
}

/* The steps that may stand in a cycle: those without a barred colour of either model. */
static void keep_lasting(struct steps *to, const struct steps *from, const struct model *knee, const struct model *habit)
{
    size_t i;

    to->count = 0;
    for (i = 0; i < from->count; i++)
        if (!plain_has_barred(knee, from->at[i].of_knee) && !plain_has_barred(habit, from->at[i].of_habit))
            to->at[to->count++] = from->at[i];
}

/* reach[x]: the triples that are reached from x by one step or more, a bit for each. */
static void close_triples(const struct steps *steps, uint32_t triples, uint64_t *reach)
{
    uint32_t x, y;
    size_t i;

    for (x = 0; x < triples; x++)
        reach[x] = 0;
    for (i = 0; i < steps->count; i++)
        reach[steps->at[i].from] |= (uint64_t)1 << steps->at[i].to;
    for (y = 0; y < triples; y++)
        for (x = 0; x < triples; x++)
            if (reach[x] >> y & 1)
                reach[x] |= reach[y];
}

/* Whether the steps on walks from x back to x meet all required colours of both. */
static int meet_all(const struct steps *steps, const uint64_t *reach, uint32_t x, const struct model *knee, const struct model *habit)
{
    uint32_t of_knee = 0, of_habit = 0;
    size_t i;

    for (i = 0; i < steps->count; i++) {
        const struct step *s = &steps->at[i];

        if ((s->from == x || (reach[x] >> s->from & 1)) && (s->to == x || (reach[s->to] >> x & 1))) {
            of_knee |= s->of_knee;
            of_habit |= s->of_habit;
        }
    }
    return plain_has_required(knee, of_knee) && plain_has_required(habit, of_habit);
}

/* As of one model: there are plans exactly where from some triple within reach a walk of one step or more leads back and meets all. */
int plain_has_plans(const struct model *knee, const struct model *habit, uint32_t c, uint32_t b)
{
    static struct steps steps, lasting;
    uint64_t reach[PLAIN_TRIPLES_MOST], round[PLAIN_TRIPLES_MOST];
    uint32_t triples = knee->n * habit->n * (b + 1), first = triple(habit, b, knee->start, habit->start, c), x;

    find_steps(&steps, knee, habit, b);
    keep_lasting(&lasting, &steps, knee, habit);
    close_triples(&steps, triples, reach);
    close_triples(&lasting, triples, round);
    for (x = 0; x < triples; x++)
        if ((x == first || (reach[first] >> x & 1)) && (round[x] >> x & 1) && meet_all(&lasting, round, x, knee, habit))
            return 1;
    return 0;
}
