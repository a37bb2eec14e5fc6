/*
 * Equal inputs give equal plans: search is called for one model again and again, with other junk in buffers of other lengths, at other
 * addresses and after other calls, and p, q and the bytes of the plan are the same. No theorem says so: docs/C-API.md says on what it
 * rests.
 */
#include "calls.h"

#include <stdlib.h>
#include <string.h>

/* What stands in the buffers before a search: one number, every number, any, what a pass would have written, what a search has left. */
enum junk { CLEAR, FULL, COUNTED, ANY, ENTRIES, LEFT };

/* A search: the junk in its buffers, so many elements that they are too long, and so many words before each list and buffer. */
struct trial {
    enum junk junk;
    size_t more, gap;
};

static const struct trial trials[] = {
    {CLEAR, 0, 0}, {FULL, 0, 1}, {COUNTED, 1, 0}, {ANY, 777, 3}, {ENTRIES, 0, 2}, {ENTRIES, 40, 5}, {LEFT, 8, 0},
};

enum { TRIALS = sizeof trials / sizeof trials[0] };

/* Lists and buffers, each behind a gap in a block of its own. */
struct blocks {
    uint8_t *sources, *targets, *colours, *actions, *plan;
    uint16_t *draws, *gains, *work;
    size_t gap, words, bytes;
};

/* How many searches found a plan, and how many said that there is none. */
static unsigned long with_plan, without_plan;

/* A word of an entry of the queue, with a node, the greatest charge, the entry before it and an arc of the model. */
static uint16_t entry_word(size_t i, const struct model *m, uint32_t b)
{
    size_t entry = i / 4, arcs = m->sources_length;

    switch (i % 4) {
    case 0: return (uint16_t)(entry % ((m->k + 1) * m->n));
    case 1: return (uint16_t)b;
    case 2: return (uint16_t)(entry == 0 ? 0 : entry - 1);
    default: return (uint16_t)(arcs == 0 ? 0 : entry % arcs);
    }
}

static uint16_t junk_word(enum junk junk, size_t i, const struct model *m, uint32_t b)
{
    switch (junk) {
    case FULL: return UINT16_MAX;
    case COUNTED: return (uint16_t)i;
    case ANY: return (uint16_t)below(UINT16_MAX + 1);
    case ENTRIES: return entry_word(i, m, b);
    default: return 0;
    }
}

/* A block with a gap of some bytes before the content; null where it has neither. */
static void *behind(size_t gap, const void *content, size_t bytes)
{
    uint8_t *block = copied(NULL, gap + bytes);

    if (gap > 0)
        memset(block, 0xa7, gap);
    if (bytes > 0 && content != NULL)
        memcpy(block + gap, content, bytes);
    return block;
}

/* The same in words. */
static uint16_t *words_behind(size_t gap, const uint16_t *content, size_t words)
{
    return behind(gap * sizeof *content, content, words * sizeof *content);
}

static struct blocks lend_blocks(const struct model *m, uint32_t b, const struct trial *t)
{
    struct blocks s;
    size_t i;

    s.gap = t->gap;
    s.words = chargeplan_work_words(m->n, m->k, b) + t->more;
    s.bytes = chargeplan_plan_bytes(m->n, m->k, b) + t->more;
    s.sources = behind(s.gap, m->sources, m->sources_length);
    s.targets = behind(s.gap, m->targets, m->targets_length);
    s.colours = behind(s.gap, m->colours, m->colours_length);
    s.actions = behind(s.gap, m->actions, m->actions_length);
    s.draws = words_behind(s.gap, m->draws, m->draws_length);
    s.gains = words_behind(s.gap, m->gains, m->gains_length);
    s.work = words_behind(s.gap, NULL, s.words);
    s.plan = behind(s.gap, NULL, s.bytes);
    for (i = 0; i < s.words; i++)
        s.work[s.gap + i] = junk_word(t->junk, i, m, b);
    for (i = 0; i < s.bytes; i++)
        s.plan[s.gap + i] = (uint8_t)junk_word(t->junk, i, m, b);
    return s;
}

static void free_blocks(struct blocks *s)
{
    free(s->sources);
    free(s->targets);
    free(s->colours);
    free(s->actions);
    free(s->draws);
    free(s->gains);
    free(s->work);
    free(s->plan);
}

/* A search of another model in the same buffers, which are long enough for it where it is not refused. */
static void search_other(const struct blocks *s)
{
    struct model e = model_e();

    chargeplan_search(e.n, e.start, e.k, e.sources, e.sources_length, e.targets, e.targets_length, e.draws, e.draws_length, e.gains,
        e.gains_length, e.colours, e.colours_length, e.actions, e.actions_length, 10, 10, e.barred, CHARGEPLAN_ALL_ON, s->work + s->gap,
        s->words, s->plan + s->gap, s->bytes);
}

/* A search; the plan found is copied to `to`. */
static uint64_t search_once(const struct model *m, uint32_t c, uint32_t b, const struct trial *t, uint8_t *to)
{
    struct blocks s = lend_blocks(m, b, t);
    size_t arcs = m->sources_length, gap = s.gap;
    const uint64_t *on = m->switches.on;
    uint64_t answer;

    if (t->junk == LEFT)
        search_other(&s);
    answer = chargeplan_search(m->n, m->start, m->k, s.sources + gap, arcs, s.targets + gap, arcs, s.draws + gap, arcs, s.gains + gap,
        arcs, s.colours + gap, arcs, s.actions + gap, arcs, c, b, m->barred, on[0], on[1], on[2], on[3], s.work + gap, s.words,
        s.plan + gap, s.bytes);
    check(chargeplan_prefix(answer) + chargeplan_cycle(answer) <= s.bytes, "a plan within its buffer");
    memcpy(to, s.plan + gap, chargeplan_prefix(answer) + chargeplan_cycle(answer));
    free_blocks(&s);
    return answer;
}

/* Other calls, between two searches. */
static void call_others(const struct model *m, uint32_t c, uint32_t b)
{
    struct gauge g;

    random_plan_tried(m, c, b);
    start_gauge("between two searches", &g, m, c, b);
    step_gauge("between two searches", &g, m, b, 0);
}

/* Every trial gives one answer, and one plan. */
static void same_plan_found(const char *what, const struct model *m, uint32_t c, uint32_t b)
{
    static uint8_t first[CHARGEPLAN_PLAN_BYTES_MOST], again[CHARGEPLAN_PLAN_BYTES_MOST];
    uint64_t answer = search_once(m, c, b, &trials[0], first);
    size_t length = (size_t)chargeplan_prefix(answer) + chargeplan_cycle(answer), i;

    with_plan += chargeplan_number(answer) == CHARGEPLAN_YES;
    without_plan += chargeplan_number(answer) == CHARGEPLAN_NO_PLAN;
    for (i = 1; i < TRIALS; i++) {
        if (i % 2)
            call_others(m, c, b);
        check(search_once(m, c, b, &trials[i], again) == answer, what);
        check(memcmp(first, again, length) == 0, what);
    }
}

/* Plans as long as they come, in queues that are nearly full: four colours, each on an arc that takes all the charge there is. */
static void same_long_plans(void)
{
    enum { B = CHARGEPLAN_BOUND_MOST, ARCS = 1 + CHARGEPLAN_COLOURS_MOST };
    static const uint16_t draws[ARCS] = {0, B, B, B, B}, gains[ARCS] = {1, 0, 0, 0, 0};
    static const uint8_t colours[ARCS] = {0, 1, 2, 4, 8};
    struct model m = model(1, CHARGEPLAN_COLOURS_MOST, ARCS, zeros, zeros, draws, gains, colours);

    same_plan_found("a long cycle", &m, 0, B);
    same_plan_found("no cycle, with a bound one lower", &m, 0, B - 1);
    m = model_g();
    same_plan_found("a short prefix", &m, 0, 5);
    same_plan_found("no prefix", &m, 0, 4);
}

void test_equal_plans(void)
{
    struct model a = model_a(), e = model_e(), j = model_j(), none = without_arcs(64, 4);

    same_plan_found("example A", &a, 0, 0);
    same_plan_found("example E", &e, 10, 10);
    same_plan_found("example J", &j, 0, 2);
    same_plan_found("no arcs", &none, 0, 127);
    same_long_plans();
}

/* A model with up to 64 modes and 255 arcs, half of which have a colour where there is one, with draws and gains up to b. */
static struct model random_wide_model(struct lists *lists, uint32_t b, uint32_t n)
{
    uint32_t k = below(CHARGEPLAN_COLOURS_MOST + 1), arcs = 1 + below(CHARGEPLAN_ARCS_MOST), a;
    struct model m = listed(n, k, lists, arcs);

    m.start = below(n);
    m.barred = random_barred();
    m.switches = random_switches();
    random_moves(lists, arcs, b, b / 4 + 1);
    for (a = 0; a < arcs; a++) {
        lists->sources[a] = (uint8_t)below(n);
        lists->targets[a] = (uint8_t)below(n);
        lists->colours[a] = (uint8_t)(k > 0 && below(2) ? 1u << below(k) : 0);
        lists->actions[a] = (uint8_t)below(CHARGEPLAN_ACTION_MOST + 1);
    }
    return m;
}

/* Small models, and one in sixteen as large as search takes; there are enough of both answers. */
void test_random_equal_plans(unsigned long models)
{
    struct lists lists;
    unsigned long i;

    with_plan = without_plan = 0;
    for (i = 0; i < models; i++) {
        int wide = i % 16 == 0;
        uint32_t n = 1 + below(CHARGEPLAN_MODES_MOST), b = wide ? CHARGEPLAN_PRODUCT_MOST / n - 1 : below(16);
        struct model m = wide ? random_wide_model(&lists, b, n) : random_fit_model(&lists);

        same_plan_found("random model", &m, below(b + 1), b);
    }
    check(with_plan >= models / 8 && without_plan >= models / 8, "models with a plan and without");
}
