#include "wards.h"

#include <inttypes.h>
#include <stdio.h>
#include <stdlib.h>
#include <string.h>

/* Wearers in a block of their own, with so many more before and behind; what is not set is junk. */
static struct chargeplan_wearer *lend_wearers(const struct wearer *wearers, size_t count, size_t gap)
{
    struct chargeplan_wearer *block = copied(NULL, (count + 2 * gap) * sizeof *block);
    size_t i;

    if (count + gap > 0)
        memset(block, 0xc3, (count + 2 * gap) * sizeof *block);
    for (i = 0; i < count; i++) {
        block[gap + i].start = wearers[i].start;
        block[gap + i].c = wearers[i].c;
        block[gap + i].b = wearers[i].b;
        block[gap + i].verdict = wearers[i].verdict;
    }
    return block;
}

/* Takes the block back: the wearers are as expected, and those before and behind as they were. */
static void take_wearers(const char *what, struct chargeplan_wearer *block, const struct wearer *expected, size_t count, size_t gap)
{
    struct chargeplan_wearer *untouched = lend_wearers(expected, count, gap);
    size_t i, right = 0;

    for (i = 0; i < count; i++) {
        const struct chargeplan_wearer *w = &block[gap + i];

        right += w->start == expected[i].start && w->c == expected[i].c && w->b == expected[i].b && w->verdict == expected[i].verdict;
    }
    check(right == count, what);
    check(same(block, untouched, gap * sizeof *block), what);
    check(gap == 0 || same(block + gap + count, untouched + gap + count, gap * sizeof *block), what);
    free(block);
    free(untouched);
}

/* The verdict of each wearer is the number that judging answers. */
static void check_judged(const char *what, const struct model *m, struct lent l, const struct wearer *wearers, size_t count,
    struct plan plan)
{
    size_t i, right = 0;

    for (i = 0; i < count; i++)
        right += wearers[i].verdict
            == chargeplan_number(chargeplan_judge(m->n, wearers[i].start, m->k, l.sources, m->sources_length, l.targets,
                m->targets_length, l.draws, m->draws_length, l.gains, m->gains_length, l.colours, m->colours_length, l.actions,
                m->actions_length, wearers[i].c, wearers[i].b, m->barred, plan.p, plan.q, plan.bytes, plan.length));
    check(right == count, what);
}

static int check_warded(const char *what, struct warded answer, struct warded expected)
{
    int right = answer.number == expected.number && answer.detail == expected.detail;

    check(right, what);
    if (!right && failures <= PRINTED_MOST)
        printf("  number %u detail %" PRIu64 ", not %u %" PRIu64 "\n", (unsigned)answer.number, answer.detail, (unsigned)expected.number,
            expected.detail);
    return right;
}

int is_of_model(uint32_t number)
{
    return number == CHARGEPLAN_MODE_COUNT || number == CHARGEPLAN_ARC_LISTS || number == CHARGEPLAN_COLOUR_COUNT
        || number == CHARGEPLAN_UNFIT_ARC;
}

/* A ward of wearers whose verdicts hold junk, as many more lent before and behind the list; they get the verdicts of the plain ward. */
static struct warded ward_once(const char *what, const struct model *m, struct wearer *wearers, size_t count, struct plan plan, size_t gap)
{
    struct lent l = lend(m);
    struct chargeplan_wearer *block = lend_wearers(wearers, count, gap);
    uint8_t *bytes = copied(plan.bytes, plan.length);
    struct chargeplan_warded got = chargeplan_ward(block == NULL ? NULL : block + gap, count, m->n, m->k, l.sources, m->sources_length,
        l.targets, m->targets_length, l.draws, m->draws_length, l.gains, m->gains_length, l.colours, m->colours_length, l.actions,
        m->actions_length, m->barred, plan.p, plan.q, bytes, plan.length);
    struct warded answer = {got.number, got.detail}, plain = plain_ward(m, wearers, count, plan.p, plan.q, plan.bytes, plan.length);

    check_warded(what, answer, plain);
    take_wearers(what, block, wearers, count, gap);
    if (!is_of_model(plain.number))
        check_judged(what, m, l, wearers, count, plan);
    check(same(bytes, plan.bytes, plan.length), what);
    free(bytes);
    take_back(m, l, what);
    return answer;
}

struct warded ward(const char *what, const struct model *m, struct wearer *wearers, size_t count, struct plan plan)
{
    struct warded first, again;
    size_t i;

    for (i = 0; i < count; i++)
        wearers[i].verdict = (uint8_t)(0xa5 + 7 * i);
    first = ward_once(what, m, wearers, count, plan, 0);
    for (i = 0; i < count; i++)
        wearers[i].verdict = 0;
    again = ward_once(what, m, wearers, count, plan, 3);
    check_warded(what, again, first);
    return first;
}

void warded(const char *what, const struct model *m, struct wearer *wearers, size_t count, struct plan plan, uint32_t number,
    uint64_t detail)
{
    struct warded expected = {number, detail};

    check_warded(what, ward(what, m, wearers, count, plan), expected);
}
