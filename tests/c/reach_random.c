/* The reach: random models and sequences of switchings, against the plain reach and against a fresh one. */
#include "reaches.h"

#include <string.h>

/* How many random answers had each number, up to 12; and how many switchings changed a charge, and how many none. */
static unsigned long answers[CHARGEPLAN_ARC_NUMBER + 1], changed, unchanged;

/* A number below n; now and then one of any size. */
static uint32_t mostly_below(uint32_t n)
{
    switch (below(40)) {
    case 0: return UINT32_MAX - below(300);
    case 1: return n + below(2);
    case 2: return below(n + 1) + 256;
    default: return n == 0 ? 0 : below(n);
    }
}

/* One switching, on or off. */
static struct chargeplan_reach random_switching(const char *what, struct chargeplan_reach r, const struct model *m, uint32_t c, uint32_t b)
{
    uint32_t arc = mostly_below((uint32_t)m->sources_length);
    uint8_t on = (uint8_t)(below(2) * (1 + below(UINT8_MAX)));
    struct chargeplan_reach s = reach_switched(what, r, m, c, b, arc, on);

    if (memcmp(s.charges, r.charges, sizeof s.charges) == 0)
        unchanged++;
    else
        changed++;
    return s;
}

/* A fresh reach, some switchings, and at last the fresh one of the arcs then on. */
static void random_sequence(const char *what, const struct model *m, uint32_t c, uint32_t b, uint32_t switchings)
{
    struct chargeplan_reached fresh = start_reach(what, m, c, b);
    struct chargeplan_reach r = reach_started(what, m, c, b);
    struct model then = *m;

    check_same_reach(what, fresh.reach, r);
    answers[chargeplan_number(fresh.answer) % (CHARGEPLAN_ARC_NUMBER + 1)]++;
    for (; switchings > 0; switchings--)
        r = random_switching(what, r, m, c, b);
    memcpy(then.switches.on, r.on, sizeof r.on);
    check_same_reach(what, r, start_reach(what, &then, c, b).reach);
}

/* Small models, some of them unfit, with small levels, some of them wrong. */
void test_random_reaches(unsigned long models)
{
    struct lists lists;
    unsigned long i;
    uint32_t number;

    memset(&lists, 0, sizeof lists);
    memset(answers, 0, sizeof answers);
    changed = unchanged = 0;
    for (i = 0; i < models; i++) {
        struct model m = random_model(&lists);
        uint32_t b = below(40), c = below(b + 1) + (below(40) == 0 ? 40 : 0);

        random_sequence("random reach", &m, c, b, below(8));
    }
    for (number = 0; models >= 1000 && number <= CHARGEPLAN_LEVELS; number++)
        check(answers[number] * 1000 >= models, "every number comes up among random reaches");
    check(models < 1000 || (changed >= models / 4 && unchanged >= models / 4), "switchings that change a charge, and that change none");
}

/* A reach of junk, switched at random: each switching against the plain one. */
void test_random_junk(unsigned long reaches_tried)
{
    struct lists lists;
    unsigned long i;

    memset(&lists, 0, sizeof lists);
    for (i = 0; i < reaches_tried; i++) {
        struct model m = random_model(&lists);
        struct chargeplan_reach r = junk_reach((unsigned)below(1u << 30));
        uint32_t b = below(40), c = below(b + 1), switchings;

        for (switchings = below(4); switchings > 0; switchings--)
            r = random_switching("random junk", r, &m, c, b);
    }
}

/* A model of many modes and arcs, whose draws and gains are small against its bound, or of every size. */
static struct model random_reach_model(struct lists *lists, uint32_t b)
{
    struct model m = random_large_model(lists);

    if (below(2))
        random_moves(lists, m.sources_length, b / (1 + below(8)) + 1, b / (1 + below(64)) + 1);
    return m;
}

/* Models with many arcs and bounds of a middle size; of so many one has a bound of every size, up to 8,191, with up to 64 modes. */
void test_random_large_reaches(unsigned long models)
{
    enum { ONE_OF = 20, BOUND = 100 };
    struct lists lists;
    unsigned long i;

    for (i = 0; i < models; i++) {
        uint32_t b = i % ONE_OF == 0 ? below(CHARGEPLAN_BOUND_MOST + 1) : below(BOUND);
        struct model m = random_reach_model(&lists, b);

        random_sequence("random large reach", &m, below(b + 1), b, below(4));
    }
}

/* With draws, gains, credit and bound all so many times as great, every charge is: tables of great bounds against plain ones of small. */
void test_random_scaled_reaches(unsigned long models)
{
    struct lists lists, to;
    unsigned long i;
    size_t mode;

    for (i = 0; i < models; i++) {
        struct model m = below(2) ? random_fit_model(&lists) : random_large_model(&lists), s;
        uint32_t b = 1 + below(63), c = below(b + 1), times = 1 + below(CHARGEPLAN_BOUND_MOST / b);
        struct chargeplan_reach small = reach_started("to be scaled", &m, c, b), great;

        if (times > CHARGEPLAN_GAIN_MOST / SMALL_MOVE_MOST)
            times = CHARGEPLAN_GAIN_MOST / SMALL_MOVE_MOST;
        s = scaled(&m, times, &to);
        great = start_reach("scaled", &s, c * times, b * times).reach;
        for (mode = 0; mode < CHARGEPLAN_MODES_MOST; mode++)
            if (small.charges[mode] != CHARGEPLAN_UNREACHED)
                small.charges[mode] = (uint16_t)(small.charges[mode] * times);
        check_same_reach("scaled", great, small);
    }
}

/*
 * Search knows the charges, too: where an arc leads from a mode to one more, in which a loop waits that alone has the colour, there is a
 * plan exactly where the arc draws no more than the greatest charge of the mode.
 */
static void reach_and_search(const struct model *m, uint32_t c, uint32_t b, struct lists *to)
{
    struct chargeplan_reach r = start_reach("reach and search", m, c, b).reach;
    uint32_t mode = below(m->n), arcs = (uint32_t)m->sources_length, draw;

    for (draw = 0; draw <= b; draw++) {
        struct arc leaves = {mode, m->n, draw, 0, 0, 0}, waits = {m->n, m->n, 0, 0, 1, 0};
        struct model s = listed(m->n + 1, 1, to, arcs + 2);
        int has;

        put(to, arcs, leaves);
        put(to, arcs + 1, waits);
        s.start = m->start;
        s.switches = with_on(with_on(m->switches, arcs), arcs + 1);
        has = chargeplan_number(search("search", &s, c, b, chargeplan_work_words(s.n, 1, b), chargeplan_plan_bytes(s.n, 1, b), 9))
            == CHARGEPLAN_YES;
        check(has == (r.charges[mode] != CHARGEPLAN_UNREACHED && draw <= r.charges[mode]), "reach and search");
    }
}

/* The reach and search agree. */
void test_random_reach_and_search(unsigned long models)
{
    struct lists lists;
    unsigned long i;

    for (i = 0; i < models; i++) {
        struct model m = random_fit_model(&lists);
        uint32_t b = below(8), c = below(b + 1);

        memset(lists.colours, 0, sizeof lists.colours);
        reach_and_search(&m, c, b, &lists);
    }
}
