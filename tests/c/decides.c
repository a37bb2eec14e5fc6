#include "decides.h"

#include <stdlib.h>
#include <string.h>

/* A block of so many words with junk. */
static uint32_t *junk_words(size_t words, unsigned junk)
{
    uint32_t *block = copied(NULL, words * sizeof *block);
    size_t i;

    for (i = 0; i < words; i++)
        block[i] = (uint32_t)(junk * 65537u + i * (junk & 0xffu) * 16843009u);
    return block;
}

/* Whether the words before and behind the space are as they were, and those of the space 0, or as they were. */
static int is_left(const uint32_t *block, const uint32_t *before, size_t gap, size_t words, int cleared)
{
    size_t bytes = words * sizeof *block, beside = gap * sizeof *block;

    if (cleared ? !is_cleared(block + gap, bytes) : !same(block + gap, before + gap, bytes))
        return 0;
    return same(block, before, beside) && same(block + gap + words, before + gap + words, beside);
}

/* Of two spaces one has words beside it; valgrind sees an access beside the other. */
uint64_t decide(const char *what, const struct model *m, uint32_t c, uint32_t b, size_t words, unsigned junk)
{
    size_t gap = junk & 1 ? 3 : 0;
    struct lent l = lend(m);
    uint32_t *block = junk_words(words + 2 * gap, junk), *before = junk_words(words + 2 * gap, junk);
    const uint64_t *on = m->switches.on;
    uint64_t answer = chargeplan_decide(m->n, m->start, m->k, l.sources, m->sources_length, l.targets, m->targets_length,
        l.draws, m->draws_length, l.gains, m->gains_length, l.colours, m->colours_length, l.actions, m->actions_length, c, b,
        m->barred, on[0], on[1], on[2], on[3], block + gap, words);
    uint32_t number = chargeplan_number(answer);

    check(is_left(block, before, gap, words, number == CHARGEPLAN_YES || number == CHARGEPLAN_NO_PLAN), what);
    free(block);
    free(before);
    take_back(m, l, what);
    return answer;
}

uint64_t decide_exactly(const char *what, const struct model *m, uint32_t c, uint32_t b)
{
    size_t words = chargeplan_decide_words(m->n, m->k);
    uint64_t answer = decide(what, m, c, b, words, 0);

    check(decide(what, m, c, b, words, 0xffffu) == answer, what);
    check(decide(what, m, c, b, words + 5, 0xa5a4u) == answer, what);
    return answer;
}

void decided(const char *what, const struct model *m, uint32_t c, uint32_t b, int has_plan)
{
    check_answer(what, decide_exactly(what, m, c, b), has_plan ? CHARGEPLAN_YES : CHARGEPLAN_NO_PLAN, 0);
}

void decide_refused(const char *what, const struct model *m, uint32_t c, uint32_t b, uint32_t number, uint32_t detail)
{
    struct model other = *m;

    check_answer(what, decide(what, m, c, b, 0, 0), number, detail);
    check_answer(what, decide(what, m, c, b, CHARGEPLAN_DECIDE_WORDS_MOST, 0x5au), number, detail);
    other.barred = UINT8_MAX;
    other.switches = all_off;
    check_answer(what, decide(what, &other, c, b, CHARGEPLAN_DECIDE_WORDS_MOST, 0x5bu), number, detail);
}

struct sketch sketch(uint32_t n, uint32_t k)
{
    struct sketch s;

    memset(&s, 0, sizeof s);
    s.n = n;
    s.k = k;
    return s;
}

void add_arc(struct sketch *s, uint32_t source, uint32_t target, uint32_t draw, uint32_t gain, uint32_t colours)
{
    struct arc arc = {source, target, draw, gain, colours, 0};

    put(&s->lists, s->arcs++, arc);
}

struct model of_sketch(const struct sketch *s)
{
    return listed(s->n, s->k, &s->lists, s->arcs);
}

/* A way that draws so much, up to the greatest draw on each arc, to a loop that meets colour 0. */
static void add_drain(struct sketch *s, uint32_t mode, uint32_t total)
{
    for (; total > CHARGEPLAN_DRAW_MOST; total -= CHARGEPLAN_DRAW_MOST) {
        add_arc(s, mode, s->n, CHARGEPLAN_DRAW_MOST, 0, 0);
        mode = s->n++;
    }
    add_arc(s, mode, s->n, total, 0, 0);
    add_arc(s, s->n, s->n, 0, 0, 1);
    s->n++;
}

void has_peak(const char *what, const struct sketch *s, uint32_t barred, uint32_t mode, uint32_t c, uint32_t b, uint32_t peak)
{
    uint32_t more;

    for (more = 0; more <= 1; more++) {
        struct sketch drained = *s;
        struct model m;

        add_drain(&drained, mode, peak + more);
        m = of_sketch(&drained);
        m.barred = (uint8_t)barred;
        decided(what, &m, c, b, !more);
    }
}
