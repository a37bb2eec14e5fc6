#include "calls.h"

#include "decides.h"
#include "leasts.h"
#include "reaches.h"

#include <inttypes.h>
#include <stdio.h>
#include <stdlib.h>
#include <string.h>

unsigned long checks, failures;

void check(int holds, const char *what)
{
    checks++;
    if (holds)
        return;
    failures++;
    if (failures <= PRINTED_MOST)
        printf("FAILED %s\n", what);
}

void check_answer(const char *what, uint64_t answer, uint32_t number, uint32_t detail)
{
    int right = chargeplan_number(answer) == number && chargeplan_detail(answer) == detail && answer >> 32 == 0;

    check(right, what);
    if (!right && failures <= PRINTED_MOST)
        printf("  number %u detail %u p %u q %u, not %u %u 0 0\n", (unsigned)chargeplan_number(answer),
            (unsigned)chargeplan_detail(answer), (unsigned)chargeplan_prefix(answer), (unsigned)chargeplan_cycle(answer),
            (unsigned)number, (unsigned)detail);
}

void check_outcome(const char *what, uint64_t answer, struct outcome expected)
{
    struct verdict v = expected.verdict;
    int right = chargeplan_number(answer) == v.number && chargeplan_detail(answer) == v.detail
        && chargeplan_steps(answer) == expected.steps && chargeplan_met(answer) == expected.met && answer >> 49 == 0;

    check(right, what);
    if (!right && failures <= PRINTED_MOST)
        printf("  number %u detail %u steps %u met %u above %u, not %u %u %u %u 0\n", (unsigned)chargeplan_number(answer),
            (unsigned)chargeplan_detail(answer), (unsigned)chargeplan_steps(answer), (unsigned)chargeplan_met(answer),
            (unsigned)(answer >> 49), (unsigned)v.number, (unsigned)v.detail, (unsigned)expected.steps, (unsigned)expected.met);
}

static void print_gauge(const char *what, struct gauge g)
{
    printf("  %s mode %u charge %u spill %" PRIu64 " modes %u arcs %u bound %u\n", what, (unsigned)g.mode, (unsigned)g.charge,
        g.spill, (unsigned)g.modes, (unsigned)g.arcs, (unsigned)g.bound);
}

void check_gauge(const char *what, struct gauge g, struct gauge expected)
{
    int right = g.mode == expected.mode && g.charge == expected.charge && g.spill == expected.spill && g.modes == expected.modes
        && g.arcs == expected.arcs && g.bound == expected.bound;

    check(right, what);
    if (!right && failures <= PRINTED_MOST) {
        print_gauge("gauge", g);
        print_gauge("not  ", expected);
    }
}

void *copied(const void *from, size_t bytes)
{
    void *to;

    if (bytes == 0)
        return NULL;
    to = malloc(bytes);
    if (to == NULL) {
        printf("no memory\n");
        exit(1);
    }
    if (from != NULL)
        memcpy(to, from, bytes);
    return to;
}

int same(const void *x, const void *y, size_t bytes)
{
    return bytes == 0 || memcmp(x, y, bytes) == 0;
}

int is_cleared(const void *block, size_t bytes)
{
    const uint8_t *byte = block;
    size_t i;

    for (i = 0; i < bytes; i++)
        if (byte[i] != 0)
            return 0;
    return 1;
}

struct lent lend(const struct model *m)
{
    struct lent l;

    l.sources = copied(m->sources, m->sources_length);
    l.targets = copied(m->targets, m->targets_length);
    l.draws = copied(m->draws, m->draws_length * sizeof *m->draws);
    l.gains = copied(m->gains, m->gains_length * sizeof *m->gains);
    l.colours = copied(m->colours, m->colours_length);
    l.actions = copied(m->actions, m->actions_length);
    return l;
}

void take_back(const struct model *m, struct lent l, const char *what)
{
    check(same(l.sources, m->sources, m->sources_length) && same(l.targets, m->targets, m->targets_length)
            && same(l.draws, m->draws, m->draws_length * sizeof *m->draws)
            && same(l.gains, m->gains, m->gains_length * sizeof *m->gains)
            && same(l.colours, m->colours, m->colours_length) && same(l.actions, m->actions, m->actions_length), what);
    free(l.sources);
    free(l.targets);
    free(l.draws);
    free(l.gains);
    free(l.colours);
    free(l.actions);
}

uint64_t judge(const char *what, const struct model *m, uint32_t c, uint32_t b, uint32_t p, uint32_t q,
    const uint8_t *plan, size_t length)
{
    struct lent l = lend(m);
    uint8_t *bytes = copied(plan, length);
    uint64_t answer = chargeplan_judge(m->n, m->start, m->k, l.sources, m->sources_length, l.targets, m->targets_length,
        l.draws, m->draws_length, l.gains, m->gains_length, l.colours, m->colours_length, l.actions, m->actions_length, c, b,
        m->barred, p, q, bytes, length);

    check(same(bytes, plan, length), what);
    free(bytes);
    take_back(m, l, what);
    return answer;
}

void judged(const char *what, const struct model *m, uint32_t c, uint32_t b, uint32_t p, uint32_t q, const uint8_t *plan,
    size_t length, uint32_t number, uint32_t detail)
{
    uint64_t answer = judge(what, m, c, b, p, q, plan, length);
    struct verdict v = plain_judge(m, c, b, p, q, plan, length);

    check_answer(what, answer, number, detail);
    check(v.number == number && v.detail == detail, what);
    if (number == CHARGEPLAN_YES) {
        walked(what, m, c, b, p, q, plan, length, UINT32_MAX, UINT16_MAX, walk_refused(CHARGEPLAN_NO_SUCH_COLOUR, 0));
    } else {
        walked(what, m, c, b, p, q, plan, length, UINT32_MAX, UINT16_MAX, walk_refused(number, detail));
        walked(what, m, c, b, p, q, plan, length, 0, UINT16_MAX, walk_refused(number, detail));
    }
}

/* Two buffers with junk, and what stood in them. */
struct buffers {
    uint16_t *work, *work_before;
    uint8_t *plan, *plan_before;
    size_t work_bytes, bytes;
};

static struct buffers lend_buffers(size_t words, size_t bytes, unsigned junk)
{
    struct buffers s;
    size_t i;

    s.work_bytes = words * sizeof *s.work;
    s.bytes = bytes;
    s.work = copied(NULL, s.work_bytes);
    s.plan = copied(NULL, bytes);
    for (i = 0; i < words; i++)
        s.work[i] = (uint16_t)(junk + i * (junk & 0xffu) * 257u);
    for (i = 0; i < bytes; i++)
        s.plan[i] = (uint8_t)(junk + i * (junk & 0xfu));
    s.work_before = copied(s.work, s.work_bytes);
    s.plan_before = copied(s.plan, bytes);
    return s;
}

/*
 * A plan found: its parts are within the sizes, the later bytes as they were, its arcs are on, and judging, plain and of the library, says
 * yes.
 */
static void check_found(const char *what, const struct model *m, uint32_t c, uint32_t b, const struct buffers *s, uint64_t answer)
{
    uint32_t p = chargeplan_prefix(answer), q = chargeplan_cycle(answer), room = m->n * (b + 1);

    check(chargeplan_detail(answer) == 0 && p <= room && q >= 1 && q <= (m->k + 1) * room, what);
    check(p + q <= s->bytes, what);
    if (p + q > s->bytes)
        return;
    check(same(s->plan + p + q, s->plan_before + p + q, s->bytes - p - q), what);
    check(plain_all_on(m->switches, s->plan, (size_t)p + q), what);
    check(plain_judge(m, c, b, p, q, s->plan, (size_t)p + q).number == 0, what);
    check(judge(what, m, c, b, p, q, s->plan, (size_t)p + q) == 0, what);
}

/* Search; a plan found is copied to `to`, unless that is null. */
static uint64_t search_to(const char *what, const struct model *m, uint32_t c, uint32_t b, size_t words, size_t bytes, unsigned junk,
    uint8_t *to)
{
    struct lent l = lend(m);
    struct buffers s = lend_buffers(words, bytes, junk);
    const uint64_t *on = m->switches.on;
    uint64_t answer = chargeplan_search(m->n, m->start, m->k, l.sources, m->sources_length, l.targets, m->targets_length,
        l.draws, m->draws_length, l.gains, m->gains_length, l.colours, m->colours_length, l.actions, m->actions_length, c, b,
        m->barred, on[0], on[1], on[2], on[3], s.work, words, s.plan, bytes);
    uint32_t number = chargeplan_number(answer);

    if (number == CHARGEPLAN_YES) {
        check(is_cleared(s.work, s.work_bytes), what);
        check_found(what, m, c, b, &s, answer);
        if (to != NULL)
            memcpy(to, s.plan, bytes);
    } else {
        check(same(s.plan, s.plan_before, bytes), what);
        check(number == CHARGEPLAN_NO_PLAN ? is_cleared(s.work, s.work_bytes) : same(s.work, s.work_before, s.work_bytes), what);
    }
    if (number == CHARGEPLAN_YES || number == CHARGEPLAN_NO_PLAN)
        check_answer(what, decide(what, m, c, b, chargeplan_decide_words(m->n, m->k), junk), number, 0);
    free(s.work);
    free(s.work_before);
    free(s.plan);
    free(s.plan_before);
    take_back(m, l, what);
    return answer;
}

uint64_t search(const char *what, const struct model *m, uint32_t c, uint32_t b, size_t words, size_t bytes, unsigned junk)
{
    return search_to(what, m, c, b, words, bytes, junk, NULL);
}

uint64_t search_exactly(const char *what, const struct model *m, uint32_t c, uint32_t b, uint8_t *plan)
{
    size_t words = chargeplan_work_words(m->n, m->k, b), bytes = chargeplan_plan_bytes(m->n, m->k, b);
    uint64_t answer = search_to(what, m, c, b, words, bytes, 0, plan);

    check(search(what, m, c, b, words, bytes, 0xffffu) == answer, what);
    check(search(what, m, c, b, words + 5, bytes + 7, 0xa5a5u) == answer, what);
    return answer;
}

void found(const char *what, const struct model *m, uint32_t c, uint32_t b)
{
    check(chargeplan_number(search_exactly(what, m, c, b, NULL)) == CHARGEPLAN_YES, what);
}

void refused(const char *what, const struct model *m, uint32_t c, uint32_t b, uint32_t number, uint32_t detail)
{
    check_answer(what, search_exactly(what, m, c, b, NULL), number, detail);
}

const struct gauge no_gauge;

struct gauge gauge_at(const struct model *m, uint32_t b, uint32_t mode, uint32_t charge, uint64_t spill)
{
    struct gauge g = {(uint8_t)mode, (uint16_t)charge, spill, (uint8_t)m->n, (uint8_t)m->sources_length, (uint16_t)b};
    return g;
}

struct gauge mixed_up(struct gauge g, unsigned fields, unsigned by)
{
    if (fields & MIX_MODES)
        g.modes = (uint8_t)(g.modes + by);
    if (fields & MIX_ARCS)
        g.arcs = (uint8_t)(g.arcs + by);
    if (fields & MIX_BOUND)
        g.bound = (uint16_t)(g.bound + by);
    return g;
}

struct gauge read_gauge(const struct chargeplan_gauge *from)
{
    struct gauge g = {from->mode, from->charge, from->spill, from->modes, from->arcs, from->bound};
    return g;
}

/* A gauge to be lent, in a block of its own; what stands between its fields is not set. */
static struct chargeplan_gauge *lend_gauge(struct gauge g)
{
    struct chargeplan_gauge *lent = copied(NULL, sizeof *lent);

    lent->mode = g.mode;
    lent->charge = g.charge;
    lent->spill = g.spill;
    lent->modes = g.modes;
    lent->arcs = g.arcs;
    lent->bound = g.bound;
    return lent;
}

uint64_t start_gauge(const char *what, struct gauge *g, const struct model *m, uint32_t c, uint32_t b)
{
    struct lent l = lend(m);
    struct chargeplan_started s = chargeplan_gauge_start(m->n, m->start, m->k, l.sources, m->sources_length, l.targets,
        m->targets_length, l.draws, m->draws_length, l.gains, m->gains_length, l.colours, m->colours_length, l.actions,
        m->actions_length, c, b);

    *g = read_gauge(&s.gauge);
    take_back(m, l, what);
    return s.answer;
}

void started(const char *what, struct gauge *g, const struct model *m, uint32_t c, uint32_t b, uint32_t number, uint32_t detail)
{
    struct gauge plain;
    struct verdict v = plain_start(&plain, m, c, b);

    check_answer(what, start_gauge(what, g, m, c, b), number, detail);
    check(v.number == number && v.detail == detail, what);
    check_gauge(what, *g, plain);
    check_gauge(what, *g, number == CHARGEPLAN_YES ? gauge_at(m, b, m->start, c, 0) : no_gauge);
}

uint64_t step_gauge(const char *what, struct gauge *g, const struct model *m, uint32_t b, uint32_t arc)
{
    struct lent l = lend(m);
    struct chargeplan_gauge *lent = lend_gauge(*g);
    struct gauge kept = *g;
    uint64_t answer = chargeplan_gauge_step(lent, m->n, m->start, m->k, l.sources, m->sources_length, l.targets, m->targets_length,
        l.draws, m->draws_length, l.gains, m->gains_length, l.colours, m->colours_length, l.actions, m->actions_length, b, arc);

    *g = read_gauge(lent);
    if (chargeplan_number(answer) == CHARGEPLAN_YES) {
        kept.mode = g->mode;
        kept.charge = g->charge;
        kept.spill = g->spill;
    }
    check_gauge(what, *g, kept);
    free(lent);
    take_back(m, l, what);
    return answer;
}

void stepped(const char *what, struct gauge *g, const struct model *m, uint32_t b, uint32_t arc, uint32_t number, uint32_t detail)
{
    struct gauge plain = *g;
    struct verdict v = plain_step(&plain, m, b, arc);

    check_answer(what, step_gauge(what, g, m, b, arc), number, detail);
    check(v.number == number && v.detail == detail, what);
    check_gauge(what, *g, plain);
}

void moved(const char *what, struct gauge *g, const struct model *m, uint32_t b, struct stop stop)
{
    stepped(what, g, m, b, stop.arc, CHARGEPLAN_YES, 0);
    check_gauge(what, *g, gauge_at(m, b, stop.mode, stop.charge, stop.spill));
}

uint64_t walk(const char *what, const struct model *m, uint32_t c, uint32_t b, uint32_t p, uint32_t q, const uint8_t *plan,
    size_t length, uint32_t j, uint16_t allowance)
{
    struct lent l = lend(m);
    uint8_t *bytes = copied(plan, length);
    uint64_t answer = chargeplan_walk(m->n, m->start, m->k, l.sources, m->sources_length, l.targets, m->targets_length,
        l.draws, m->draws_length, l.gains, m->gains_length, l.colours, m->colours_length, l.actions, m->actions_length, c, b,
        m->barred, p, q, bytes, length, j, allowance);

    check(same(bytes, plan, length), what);
    free(bytes);
    take_back(m, l, what);
    return answer;
}

void walked(const char *what, const struct model *m, uint32_t c, uint32_t b, uint32_t p, uint32_t q, const uint8_t *plan,
    size_t length, uint32_t j, uint16_t allowance, struct outcome expected)
{
    struct outcome o = plain_walk(m, c, b, p, q, plan, length, j, allowance);

    check_outcome(what, walk(what, m, c, b, p, q, plan, length, j, allowance), expected);
    check(o.verdict.number == expected.verdict.number && o.verdict.detail == expected.verdict.detail && o.steps == expected.steps
            && o.met == expected.met, what);
}

struct outcome met(uint32_t steps)
{
    struct outcome o = {{CHARGEPLAN_YES, 0}, steps, 1};
    return o;
}

struct outcome spent(uint32_t steps)
{
    struct outcome o = {{CHARGEPLAN_YES, 0}, steps, 0};
    return o;
}

struct outcome walk_refused(uint32_t number, uint32_t detail)
{
    struct outcome o = {{number, detail}, 0, 0};
    return o;
}

void all_refused(const char *what, const struct model *m, uint32_t c, uint32_t b, uint32_t number, uint32_t detail)
{
    static const uint8_t round[] = {0};
    struct gauge g = gauge_at(m, b, 255, c < UINT16_MAX ? c : UINT16_MAX, UINT64_MAX), fresh;
    unsigned fields;

    judged(what, m, c, b, 0, 1, round, 1, number, detail);
    judged(what, m, c, b, 0, 0, NULL, 0, number, detail);
    check_answer(what, search(what, m, c, b, 0, 0, 0), number, detail);
    check_answer(what, search(what, m, c, b, 4096, 4096, 0x5au), number, detail);
    started(what, &fresh, m, c, b, number, detail);
    for (fields = 0; fields <= MIX_ALL; fields++) {
        struct gauge mixed = mixed_up(g, fields, 1);

        stepped(what, &mixed, m, b, 0, number, detail);
        stepped(what, &mixed, m, b, UINT32_MAX, number, detail);
    }
    if (number != CHARGEPLAN_LEVELS || c > b || b > CHARGEPLAN_DECIDE_BOUND_MOST)
        decide_refused(what, m, c, b, number, detail);
    if (number != CHARGEPLAN_LEVELS)
        leasts_refused(what, m, b, number, detail);
    start_refused(what, m, c, b, number, detail);
    switch_refused(what, m, c, b, 0, number, detail);
    switch_refused(what, m, c, b, UINT32_MAX, number, detail);
}
