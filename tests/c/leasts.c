#include "leasts.h"

#include <stdio.h>
#include <stdlib.h>
#include <string.h>

/* The words beside a space, where it has some, and how many kinds of junk there are. */
enum { GAP = 3, KINDS = 64 };

enum { BLOCK_MOST = CHARGEPLAN_WORK_WORDS_MOST + LEAST_LONGER_MOST + 2 * GAP };

void check_least(const char *what, uint64_t answer, uint32_t number, uint32_t detail, uint32_t value)
{
    int right = chargeplan_number(answer) == number && chargeplan_detail(answer) == detail && chargeplan_value(answer) == value;

    check(right, what);
    if (!right && failures <= PRINTED_MOST)
        printf("  number %u detail %u value %u, not %u %u %u\n", (unsigned)chargeplan_number(answer), (unsigned)chargeplan_detail(answer),
            (unsigned)chargeplan_value(answer), (unsigned)number, (unsigned)detail, (unsigned)value);
}

/* Junk of one kind for a block of any size: no word of it is 0, and each kind has other words at its places. */
static const uint16_t *junk_of(unsigned kind)
{
    static uint16_t words[BLOCK_MOST + KINDS];
    size_t i;

    if (words[0] == 0)
        for (i = 0; i < BLOCK_MOST + KINDS; i++)
            words[i] = (uint16_t)(i * 40502u | 1u);
    return words + kind % KINDS;
}

/* Whether the words before and behind the space are the junk, and those of the space 0, or the junk. */
static int is_left(const uint16_t *block, const uint16_t *junk, size_t gap, size_t words, int cleared)
{
    static const uint16_t zero[BLOCK_MOST];
    size_t beside = gap * sizeof *block;

    return same(block + gap, cleared ? zero : junk + gap, words * sizeof *block) && same(block, junk, beside)
        && same(block + gap + words, junk + gap + words, beside);
}

/* The call of the library. */
static uint64_t call(enum least of, const struct model *m, struct lent l, uint32_t given, uint16_t *work, size_t words)
{
    const uint64_t *on = m->switches.on;

    if (of == LEAST_CREDIT)
        return chargeplan_least_credit(m->n, m->start, m->k, l.sources, m->sources_length, l.targets, m->targets_length, l.draws,
            m->draws_length, l.gains, m->gains_length, l.colours, m->colours_length, l.actions, m->actions_length, given, m->barred,
            on[0], on[1], on[2], on[3], work, words);
    return chargeplan_least_bound(m->n, m->start, m->k, l.sources, m->sources_length, l.targets, m->targets_length, l.draws,
        m->draws_length, l.gains, m->gains_length, l.colours, m->colours_length, l.actions, m->actions_length, given, m->barred, on[0],
        on[1], on[2], on[3], work, words);
}

/* Of two spaces one has words beside it; valgrind sees an access beside the other. */
uint64_t least(const char *what, enum least of, const struct model *m, uint32_t given, size_t words, unsigned junk)
{
    size_t gap = junk & 1 ? GAP : 0;
    const uint16_t *before = junk_of(junk);
    uint16_t *block = copied(before, (words + 2 * gap) * sizeof *block);
    struct lent l = lend(m);
    uint64_t answer = call(of, m, l, given, block + gap, words);
    uint32_t number = chargeplan_number(answer);

    check(is_left(block, before, gap, words, number == CHARGEPLAN_YES || number == CHARGEPLAN_NO_PLAN), what);
    check(number == CHARGEPLAN_YES || chargeplan_value(answer) == 0, what);
    free(block);
    take_back(m, l, what);
    return answer;
}

uint64_t least_exactly(const char *what, enum least of, const struct model *m, uint32_t given)
{
    size_t words = plain_least_words(of, m, given);
    uint64_t answer = least(what, of, m, given, words, 0);

    check(least(what, of, m, given, words + 5, 3) == answer, what);
    return answer;
}

uint32_t least_searched(const char *what, enum least of, const struct model *m, uint32_t given, uint32_t tried)
{
    uint32_t c = of == LEAST_CREDIT ? tried : given, b = of == LEAST_CREDIT ? given : tried;

    return chargeplan_number(
        search(what, m, c, b, chargeplan_work_words(m->n, m->k, b), chargeplan_plan_bytes(m->n, m->k, b), 0x3c5bu));
}

void least_is(const char *what, enum least of, const struct model *m, uint32_t given, uint32_t value)
{
    check_least(what, least_exactly(what, of, m, given), CHARGEPLAN_YES, 0, value);
    check(least_searched(what, of, m, given, value) == CHARGEPLAN_YES, what);
    if (value > plain_first_tried(of, given))
        check(least_searched(what, of, m, given, value - 1) == CHARGEPLAN_NO_PLAN, what);
}

void least_is_none(const char *what, enum least of, const struct model *m, uint32_t given)
{
    check_least(what, least_exactly(what, of, m, given), CHARGEPLAN_NO_PLAN, 0, 0);
    check(least_searched(what, of, m, given, plain_last_tried(of, m, given)) == CHARGEPLAN_NO_PLAN, what);
}

uint64_t least_tried(const char *what, enum least of, const struct model *m, uint32_t given, size_t words, unsigned junk)
{
    uint64_t answer = least(what, of, m, given, words, junk);
    struct verdict v = plain_least_refusal(of, m, given, words);
    uint32_t value = chargeplan_value(answer), first = plain_first_tried(of, given), last, tried;
    int is_told = chargeplan_number(answer) == CHARGEPLAN_YES;

    if (v.number != 0) {
        check_least(what, answer, v.number, v.detail, 0);
        return answer;
    }
    last = plain_last_tried(of, m, given);
    check(is_told ? value >= first && value <= last : answer == CHARGEPLAN_NO_PLAN, what);
    check(chargeplan_detail(answer) == 0, what);
    for (tried = first; tried <= last; tried++)
        check(plain_serves(of, m, given, tried) == (is_told && tried >= value), what);
    return answer;
}

void least_refused(const char *what, enum least of, const struct model *m, uint32_t given, size_t words, uint32_t number, uint32_t detail)
{
    struct model other = *m;

    check_least(what, least(what, of, m, given, words, 4), number, detail, 0);
    other.barred = UINT8_MAX;
    other.switches = all_off;
    check_least(what, least(what, of, &other, given, words, 7), number, detail, 0);
}

void leasts_refused(const char *what, const struct model *m, uint32_t given, uint32_t number, uint32_t detail)
{
    least_refused(what, LEAST_CREDIT, m, given, 0, number, detail);
    least_refused(what, LEAST_BOUND, m, given, 0, number, detail);
}
