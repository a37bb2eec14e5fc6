#include "calls.h"

#include <string.h>

/* The longest plan that is found where there are few pairs. */
enum { FOUND_MOST = (CHARGEPLAN_COLOURS_MOST + 2) * PLAIN_PAIRS_MOST };

/* How many bounds small models are tried with, from 0 on: they have at most 4 modes. */
enum { SMALL_BOUNDS = PLAIN_PAIRS_MOST / 4 };

static uint64_t random_state = 88172645463325252u;

uint32_t below(uint32_t n)
{
    random_state ^= random_state << 13;
    random_state ^= random_state >> 7;
    random_state ^= random_state << 17;
    return (uint32_t)((random_state >> 33) % n);
}

void shuffle(uint8_t *numbers, size_t count)
{
    for (; count > 1; count--) {
        uint32_t i = below((uint32_t)count);
        uint8_t last = numbers[count - 1];

        numbers[count - 1] = numbers[i];
        numbers[i] = last;
    }
}

uint8_t random_barred(void)
{
    return (uint8_t)(below(2) * below(UINT8_MAX + 1));
}

/* A word of any bits. */
static uint64_t random_word(void)
{
    return (uint64_t)below(1u << 22) << 44 | (uint64_t)below(1u << 22) << 22 | below(1u << 22);
}

struct switches random_switches(void)
{
    struct switches s = all_on;
    size_t i;

    if (below(2))
        return s;
    for (i = 0; i < CHARGEPLAN_ON_WORDS; i++)
        s.on[i] = random_word() | random_word();
    return s;
}

/* An arc between n modes without colours, with any action; of three, one draws, one gains, and one does both, up to these. */
static struct arc random_move(uint32_t n, uint32_t draw_most, uint32_t gain_most)
{
    struct arc arc = {below(n), below(n), below(draw_most + 1), below(gain_most + 1), 0, below(CHARGEPLAN_ACTION_MOST + 1)};
    uint32_t kind = below(3);

    if (kind == 0)
        arc.draw = 0;
    if (kind == 1)
        arc.gain = 0;
    return arc;
}

void random_moves(struct lists *lists, size_t arcs, uint32_t draw_most, uint32_t gain_most)
{
    size_t a;

    for (a = 0; a < arcs; a++) {
        struct arc move = random_move(1, draw_most, gain_most);

        lists->draws[a] = (uint16_t)move.draw;
        lists->gains[a] = (uint16_t)move.gain;
    }
}

struct model random_fit_model(struct lists *lists)
{
    uint32_t n = 1 + below(4), k = below(5), arcs = below(SMALL_ARCS_MOST + 1), a;
    struct model m = listed(n, k, lists, arcs);

    m.start = below(n);
    m.barred = random_barred();
    m.switches = random_switches();
    for (a = 0; a < arcs; a++) {
        struct arc arc = random_move(n, SMALL_MOVE_MOST, SMALL_MOVE_MOST);

        arc.colours = below(1u << k) & below(256);
        put(lists, a, arc);
    }
    return m;
}

struct model random_model(struct lists *lists)
{
    struct model m = random_fit_model(lists);
    size_t other_length = SMALL_ARCS_MOST + 1 - m.sources_length;
    uint32_t at = below(SMALL_ARCS_MOST);

    switch (below(64)) {
    case 0: m.n = below(2) * 65; break;
    case 1: m.start = m.n; break;
    case 2: m.k = 5 + below(300); break;
    case 3: m.targets_length = other_length; break;
    case 4: m.draws_length = other_length; break;
    case 5: m.gains_length = other_length; break;
    case 6: lists->sources[at] = (uint8_t)m.n; break;
    case 7: lists->targets[at] = 255; break;
    case 8: lists->draws[at] = (uint16_t)(10001 + below(UINT16_MAX - 10000)); break;
    case 9: lists->gains[at] = (uint16_t)(10001 + below(UINT16_MAX - 10000)); break;
    case 10: lists->colours[at] = (uint8_t)(1u << m.k); break;
    case 11: m.actions_length = other_length; break;
    case 12: lists->actions[at] = (uint8_t)(16 + below(UINT8_MAX - 15)); break;
    default: break;
    }
    return m;
}

static int has_equal_lists(const struct model *m)
{
    size_t arcs = m->sources_length;

    return m->targets_length == arcs && m->draws_length == arcs && m->gains_length == arcs && m->colours_length == arcs
        && m->actions_length == arcs;
}

/* A number below n or, in one of so many calls, up to n. */
static uint32_t up_to(uint32_t n, uint32_t calls)
{
    return below(n + (n == 0 || below(calls) == 0));
}

uint8_t random_arc(const struct model *m, uint32_t mode)
{
    uint32_t arcs = (uint32_t)m->sources_length, arc = up_to(arcs, 50), tries;

    for (tries = 0; tries < 30 && arc < arcs && m->sources[arc] != mode; tries++)
        arc = below(arcs);
    return (uint8_t)arc;
}

size_t random_plan(const struct model *m, uint8_t *plan, size_t most)
{
    size_t length = below((uint32_t)most + 1), i;
    uint32_t mode = m->start;

    for (i = 0; i < length; i++) {
        plan[i] = random_arc(m, mode);
        mode = plan[i] < m->sources_length && plan[i] < m->targets_length ? m->targets[plan[i]] : mode;
    }
    return length;
}

int random_plan_tried(const struct model *m, uint32_t c, uint32_t b)
{
    uint8_t plan[12];
    size_t length = m->sources_length == 0 ? 0 : random_plan(m, plan, sizeof plan);
    uint32_t p = length == 0 ? 0 : below((uint32_t)length), q = (uint32_t)length - p + (below(20) == 0), j = below(6);
    uint16_t allowance = (uint16_t)below(16);
    struct verdict v = plain_judge(m, c, b, p, q, plan, length);

    check_answer("random plan", judge("random plan", m, c, b, p, q, plan, length), v.number, v.detail);
    check_outcome("random plan walked", walk("random plan walked", m, c, b, p, q, plan, length, j, allowance),
        plain_walk(m, c, b, p, q, plan, length, j, allowance));
    return v.number == 0 && plain_all_on(m->switches, plan, length);
}

/* The plan found walked, for each colour and for one that is none. */
static void test_random_walks(const struct model *m, uint32_t c, uint32_t b, uint64_t answer, const uint8_t *plan)
{
    uint32_t p = chargeplan_prefix(answer), q = chargeplan_cycle(answer), length = p + q, j;

    for (j = 0; j <= m->k; j++) {
        uint16_t allowance = (uint16_t)below(below(2) ? length + 2 : UINT16_MAX + 1);

        check_outcome("random walk", walk("random walk", m, c, b, p, q, plan, length, j, allowance),
            plain_walk(m, c, b, p, q, plan, length, j, allowance));
    }
}

/* The gauge follows the plan found through its prefix and two rounds of its cycle. */
static void test_random_rounds(const struct model *m, uint32_t c, uint32_t b, uint64_t answer, const uint8_t *plan)
{
    uint32_t p = chargeplan_prefix(answer), q = chargeplan_cycle(answer), i;
    struct gauge g;

    check_answer("random rounds", start_gauge("random rounds", &g, m, c, b), CHARGEPLAN_YES, 0);
    for (i = 0; i < p + 2 * q; i++)
        check_answer("random rounds", step_gauge("random rounds", &g, m, b, plan[i < p + q ? i : i - q]), CHARGEPLAN_YES, 0);
}

/* What search found, if it did; a plan longer than the buffer has failed before. */
static void test_random_found(const struct model *m, uint32_t c, uint32_t b, uint64_t answer, const uint8_t *plan)
{
    if (chargeplan_number(answer) != CHARGEPLAN_YES || chargeplan_prefix(answer) + chargeplan_cycle(answer) > FOUND_MOST)
        return;
    test_random_walks(m, c, b, answer, plan);
    if (below(16) == 0)
        test_random_rounds(m, c, b, answer, plan);
}

/* The model with its arcs in a random order. */
static struct model shuffled(const struct model *m, struct lists *to)
{
    uint8_t order[CHARGEPLAN_ARCS_MOST];
    size_t i;

    for (i = 0; i < m->sources_length; i++)
        order[i] = (uint8_t)i;
    shuffle(order, m->sources_length);
    return reordered(m, order, to);
}

/* Another model with the same n and number of arcs: the arcs in another order, another start mode, all colours. */
static struct model random_other(const struct model *m, struct lists *to)
{
    struct model r = shuffled(m, to);

    r.start = up_to(m->n, 50);
    r.k = CHARGEPLAN_COLOURS_MOST;
    return r;
}

/* Another n, one arc fewer, or another bound. */
static void mix_up_call(struct model *m, uint32_t *b)
{
    switch (below(3)) {
    case 0: m->n++; break;
    case 1: *m = without_last(m); break;
    default: *b = below(2) ? *b + 1 : below(*b + 1); break;
    }
}

/*
 * A gauge made by hand, with a spill near 2^64; it may be in no mode of the model, charged above the bound, or mixed up in any of the
 * three numbers.
 */
static struct gauge random_gauge(const struct model *m, uint32_t b)
{
    struct gauge g = gauge_at(m, b, up_to(m->n, 8), up_to(b + 1, 8), UINT64_MAX - below(10));

    return below(4) == 0 ? mixed_up(g, below(MIX_ALL + 1), below(UINT16_MAX + 1)) : g;
}

/*
 * Steps of a gauge on random arcs of its model or of the other one with the same n and number of arcs, some with a call mixed up. At
 * each: the charge at first + the gains walked = the charge + the draws walked + the spill since then.
 */
static void random_steps(struct gauge g, const struct model *m, const struct model *other, uint32_t b, uint32_t steps)
{
    struct gauge plain = g;
    uint64_t draws = 0, gains = 0, charge = g.charge, spill = g.spill;

    for (; steps > 0; steps--) {
        struct model called = below(4) == 0 ? *other : *m;
        uint32_t bound = b;
        struct verdict v;
        uint64_t answer;
        uint8_t arc;

        if (below(6) == 0)
            mix_up_call(&called, &bound);
        arc = random_arc(&called, g.mode);
        v = plain_step(&plain, &called, bound, arc);
        answer = step_gauge("random step", &g, &called, bound, arc);
        check_answer("random step", answer, v.number, v.detail);
        check_gauge("random step", g, plain);
        if (chargeplan_number(answer) == CHARGEPLAN_YES) {
            draws += called.draws[arc];
            gains += called.gains[arc];
        }
        check(charge + gains == g.charge + draws + (g.spill - spill), "balance");
    }
}

/* A gauge started and stepped, and now and then one made by hand. */
static void test_random_gauges(const struct model *m, uint32_t c, uint32_t b, uint32_t steps)
{
    struct lists lists;
    struct model other = random_other(m, &lists);
    struct gauge g, plain;
    struct verdict v = plain_start(&plain, m, c, b);

    check_answer("random start", start_gauge("random start", &g, m, c, b), v.number, v.detail);
    check_gauge("random start", g, plain);
    random_steps(g, m, &other, b, below(steps + 1));
    if (below(4) == 0)
        random_steps(random_gauge(m, b), m, &other, b, steps);
}

/* With the arcs in another order search answers with the same number, and with the same detail unless that is an arc. */
static void test_random_order(const struct model *m, uint32_t c, uint32_t b, uint64_t answer)
{
    struct lists lists;
    struct model r;
    uint64_t other;

    if (!has_equal_lists(m))
        return;
    r = shuffled(m, &lists);
    other = search("random order", &r, c, b, chargeplan_work_words(m->n, m->k, b), chargeplan_plan_bytes(m->n, m->k, b), 0xc3c3u);
    check(chargeplan_number(other) == chargeplan_number(answer), "random order");
    if (chargeplan_number(answer) == CHARGEPLAN_UNFIT_ARC)
        check(chargeplan_detail(other) == plain_fitness(&r, c, b).detail, "random order, unfit arc");
    else
        check(chargeplan_detail(other) == chargeplan_detail(answer), "random order");
}

/* What search answers, and whether it had to. */
static void test_random_answer(const struct model *m, uint32_t c, uint32_t b, uint64_t answer)
{
    struct verdict v = plain_fitness(m, c, b);

    if (v.number != 0)
        check_answer("random unfit model", answer, v.number, v.detail);
    else
        check(chargeplan_number(answer) == (plain_has_plan(m, c, b) ? CHARGEPLAN_YES : CHARGEPLAN_NO_PLAN), "random model");
}

/* Every call, with a random bound and credit of few pairs. */
static void test_random_calls(const struct model *m, uint32_t bounds, uint32_t steps)
{
    uint8_t plan[FOUND_MOST];
    uint32_t b = below(bounds), c = below(b + 1) + (below(40) == 0 ? bounds : 0);
    uint64_t answer = search_exactly("random model", m, c, b, plan);

    random_plan_tried(m, c, b);
    test_random_found(m, c, b, answer, plan);
    test_random_gauges(m, c, b, steps);
    test_random_order(m, c, b, answer);
    test_random_answer(m, c, b, answer);
}

void test_random(unsigned long models)
{
    struct lists lists;
    unsigned long i;

    memset(&lists, 0, sizeof lists);
    for (i = 0; i < models; i++) {
        struct model m = random_model(&lists);

        test_random_calls(&m, SMALL_BOUNDS, 4);
    }
}

struct model random_large_model(struct lists *lists)
{
    uint32_t n = 1 + below(CHARGEPLAN_MODES_MOST), k = below(5), arcs = below(CHARGEPLAN_ARCS_MOST + 1), with_arcs = 1 + below(n), a;
    struct model m = listed(n, k, lists, arcs);

    m.start = below(n);
    m.barred = random_barred();
    m.switches = random_switches();
    for (a = 0; a < arcs; a++) {
        struct arc arc = random_move(n, 6, 3);

        arc.source = below(with_arcs) * 7 % n;
        arc.colours = below(1u << k) & below(256) & below(256);
        put(lists, a, arc);
    }
    return m;
}

void test_random_large(unsigned long models)
{
    struct lists lists;
    unsigned long i;

    for (i = 0; i < models; i++) {
        struct model m = random_large_model(&lists);

        test_random_calls(&m, PLAIN_PAIRS_MOST / m.n, 10);
    }
}

/* Gauges and a plan of a model, with a bound and credit of every size. */
static void test_random_bounds(const struct model *m)
{
    uint32_t b = below(CHARGEPLAN_BOUND_MOST + 1), c = below(b + 1);

    test_random_gauges(m, c, b, 100);
    random_plan_tried(m, c, b);
}

/* The same of models with draws and gains of every size. */
void test_random_draws(unsigned long models)
{
    struct lists lists;
    unsigned long i;

    for (i = 0; i < models; i++) {
        struct model m = random_large_model(&lists);

        random_moves(&lists, m.sources_length, CHARGEPLAN_DRAW_MOST, CHARGEPLAN_GAIN_MOST);
        test_random_bounds(&m);
    }
}

/* The model with random weights, from least up to most, in place of its draws and gains. */
static struct model weighed(const struct model *m, struct lists *lists, int16_t *weights, int32_t least, int32_t most)
{
    size_t a;

    for (a = 0; a < m->sources_length; a++)
        weights[a] = (int16_t)(least + (int32_t)below((uint32_t)(most - least + 1)));
    return by_weights(*m, weights, lists);
}

/* Every call of models that have weights against the plain reading by weights. */
void test_random_weights(unsigned long models)
{
    int16_t weights[CHARGEPLAN_ARCS_MOST];
    struct lists lists;
    unsigned long i;

    memset(&lists, 0, sizeof lists);
    for (i = 0; i < models; i++) {
        struct model m = random_model(&lists), w = weighed(&m, &lists, weights, -6, 6);

        test_random_calls(&w, SMALL_BOUNDS, 4);
    }
}

/* The same with many arcs, and gauges and plans of models with weights of every size. */
void test_random_large_weights(unsigned long models)
{
    int16_t weights[CHARGEPLAN_ARCS_MOST];
    struct lists lists;
    unsigned long i;

    for (i = 0; i < models; i++) {
        struct model m = random_large_model(&lists), w = weighed(&m, &lists, weights, -6, 3);

        test_random_calls(&w, PLAIN_PAIRS_MOST / m.n, 10);
        w = weighed(&m, &lists, weights, -10000, 10000);
        test_random_bounds(&w);
    }
}
