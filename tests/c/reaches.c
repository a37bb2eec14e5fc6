#include "reaches.h"

#include <inttypes.h>
#include <stdio.h>
#include <string.h>

struct chargeplan_reached start_reach(const char *what, const struct model *m, uint32_t c, uint32_t b)
{
    struct lent l = lend(m);
    const uint64_t *on = m->switches.on;
    struct chargeplan_reached r = chargeplan_reach_start(m->n, m->start, m->k, l.sources, m->sources_length, l.targets,
        m->targets_length, l.draws, m->draws_length, l.gains, m->gains_length, l.colours, m->colours_length, l.actions,
        m->actions_length, c, b, on[0], on[1], on[2], on[3]);

    take_back(m, l, what);
    return r;
}

struct chargeplan_reached switch_reach(const char *what, struct chargeplan_reach r, const struct model *m, uint32_t c, uint32_t b,
    uint32_t arc, uint8_t on)
{
    struct lent l = lend(m);
    struct chargeplan_reached s = chargeplan_reach_switch(r, m->n, m->start, m->k, l.sources, m->sources_length, l.targets,
        m->targets_length, l.draws, m->draws_length, l.gains, m->gains_length, l.colours, m->colours_length, l.actions,
        m->actions_length, c, b, arc, on);

    take_back(m, l, what);
    return s;
}

int same_reach(struct chargeplan_reach x, struct chargeplan_reach y)
{
    return memcmp(x.on, y.on, sizeof x.on) == 0 && memcmp(x.charges, y.charges, sizeof x.charges) == 0;
}

/* Prints where two reaches differ. */
static void print_difference(struct chargeplan_reach r, struct chargeplan_reach expected)
{
    size_t i;

    for (i = 0; i < CHARGEPLAN_ON_WORDS; i++)
        if (r.on[i] != expected.on[i])
            printf("  word %u of the switches %016" PRIx64 ", not %016" PRIx64 "\n", (unsigned)i, r.on[i], expected.on[i]);
    for (i = 0; i < CHARGEPLAN_MODES_MOST; i++)
        if (r.charges[i] != expected.charges[i])
            printf("  mode %u charge %u, not %u\n", (unsigned)i, (unsigned)r.charges[i], (unsigned)expected.charges[i]);
}

void check_same_reach(const char *what, struct chargeplan_reach r, struct chargeplan_reach expected)
{
    int right = same_reach(r, expected);

    check(right, what);
    if (!right && failures <= PRINTED_MOST)
        print_difference(r, expected);
}

/* The plain reach as the library has it. */
static struct chargeplan_reach of_plain(const struct reach *plain)
{
    struct chargeplan_reach r;

    memcpy(r.on, plain->switches.on, sizeof r.on);
    memcpy(r.charges, plain->charges, sizeof r.charges);
    return r;
}

struct chargeplan_reach reach_started(const char *what, const struct model *m, uint32_t c, uint32_t b)
{
    struct chargeplan_reached r = start_reach(what, m, c, b);
    struct reach plain;
    struct verdict v = plain_reach_start(&plain, m, c, b);

    check_answer(what, r.answer, v.number, v.detail);
    check_same_reach(what, r.reach, of_plain(&plain));
    return r.reach;
}

struct chargeplan_reach reach_switched(const char *what, struct chargeplan_reach r, const struct model *m, uint32_t c, uint32_t b,
    uint32_t arc, uint8_t on)
{
    struct chargeplan_reached s = switch_reach(what, r, m, c, b, arc, on);
    struct reach plain;
    struct verdict v;

    memcpy(plain.switches.on, r.on, sizeof r.on);
    memcpy(plain.charges, r.charges, sizeof r.charges);
    v = plain_reach_switch(&plain, m, c, b, arc, on);
    check_answer(what, s.answer, v.number, v.detail);
    check_same_reach(what, s.reach, of_plain(&plain));
    return s.reach;
}

void reaches(const char *what, const struct model *m, uint32_t c, uint32_t b, const uint16_t *charges)
{
    struct chargeplan_reach r = reach_started(what, m, c, b);
    size_t mode, right = 0;

    for (mode = 0; mode < CHARGEPLAN_MODES_MOST; mode++)
        right += r.charges[mode] == (mode < m->n ? charges[mode] : CHARGEPLAN_UNREACHED);
    check(right == CHARGEPLAN_MODES_MOST, what);
}

struct chargeplan_reach junk_reach(unsigned junk)
{
    struct chargeplan_reach r;
    size_t i;

    for (i = 0; i < CHARGEPLAN_ON_WORDS; i++)
        r.on[i] = 0x9e3779b97f4a7c15u * (junk + i + 1);
    for (i = 0; i < CHARGEPLAN_MODES_MOST; i++) {
        r.charges[i] = (uint16_t)(40503u * (junk + i));
        if (i * 7 % 5 == junk % 5)
            r.charges[i] = CHARGEPLAN_UNREACHED;
        if (i * 3 % 7 == junk % 7)
            r.charges[i] = 0;
    }
    return r;
}

void start_refused(const char *what, const struct model *m, uint32_t c, uint32_t b, uint32_t number, uint32_t detail)
{
    static const struct switches tried[] = {{{CHARGEPLAN_ALL_ON}}, {{0, 0, 0, 0}}, {{1, 2, 3, (uint64_t)1 << 63}}};
    struct model other = *m;
    size_t i, mode, unreached;

    for (i = 0; i < sizeof tried / sizeof tried[0]; i++) {
        struct chargeplan_reached r;

        other.switches = tried[i];
        r = start_reach(what, &other, c, b);
        check_answer(what, r.answer, number, detail);
        check(memcmp(r.reach.on, tried[i].on, sizeof r.reach.on) == 0, what);
        for (mode = 0, unreached = 0; mode < CHARGEPLAN_MODES_MOST; mode++)
            unreached += r.reach.charges[mode] == CHARGEPLAN_UNREACHED;
        check(unreached == CHARGEPLAN_MODES_MOST, what);
    }
}

void switch_refused(const char *what, const struct model *m, uint32_t c, uint32_t b, uint32_t arc, uint32_t number, uint32_t detail)
{
    static const uint8_t bytes[] = {0, 1, 255};
    size_t i;

    for (i = 0; i < sizeof bytes; i++) {
        struct chargeplan_reach junk = junk_reach(7919u * (unsigned)i);
        struct chargeplan_reached r = switch_reach(what, junk, m, c, b, arc, bytes[i]);

        check_answer(what, r.answer, number, detail);
        check_same_reach(what, r.reach, junk);
    }
}
