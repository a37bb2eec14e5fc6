/*
 * The ward (document 02, Ask 11): the model that is refused before any wearer, the verdicts, the first other verdict and its place, and
 * lists, plans and numbers of any size. Random wards are in ward_random.c.
 */
#include "wards.h"

#include <stdlib.h>
#include <string.h>

enum { DRAWS, GAINS, LEAVES, STAYS, PLAIN, ARCS };

/* Two modes and a colour. Arcs of mode 0 that draw 1, gain 1, lead to mode 1, or do nothing, and one of mode 1 that stays there. */
static struct model knee(struct lists *to)
{
    static const struct arc arcs[ARCS] = {
        {0, 0, 1, 0, 1, 0}, {0, 0, 0, 1, 1, 0}, {0, 1, 0, 0, 1, 0}, {1, 1, 0, 0, 1, 0}, {0, 0, 0, 0, 0, 0}};

    return of_arcs(to, 2, 1, arcs, ARCS);
}

/* A round of the knee's arc that gains: a wearer in mode 0 with right levels can have it. */
static const uint8_t gaining[] = {GAINS, GAINS};
static const struct plan good = {0, 1, gaining, 1};

/* One wearer of each kind: full, empty, in the other mode, in no mode, charged above the bound, with too great a bound. */
enum { FULL, EMPTY, OTHER_MODE, NO_MODE, OVERCHARGED, OVERSIZED, KINDS };
static const struct wearer kinds[KINDS] = {{0, 5, 5, 0}, {0, 0, 5, 0}, {1, 5, 5, 0}, {2, 5, 5, 0}, {0, 6, 5, 0}, {0, 5, 8192, 0}};

/* The verdicts of the first three kinds on a plan; the others have 2, 6 and 6 on every plan. */
struct verdicts {
    const char *what;
    struct plan plan;
    uint8_t barred, of[NO_MODE];
};

/* The wearers of all kinds, this one first; the verdicts by hand, and the first that is not 0 with its place. */
static void one_order(const struct verdicts *v, const struct model *m, size_t first)
{
    static const uint8_t on_every_plan[KINDS] = {0, 0, 0, CHARGEPLAN_START_MODE, CHARGEPLAN_LEVELS, CHARGEPLAN_LEVELS};
    struct wearer wearers[KINDS];
    uint8_t expected[KINDS];
    size_t i, other = 0;

    for (i = 0; i < KINDS; i++) {
        size_t kind = (first + i) % KINDS;

        wearers[i] = kinds[kind];
        expected[i] = kind < NO_MODE ? v->of[kind] : on_every_plan[kind];
    }
    while (expected[other] == 0)
        other++;
    warded(v->what, m, wearers, KINDS, v->plan, expected[other], other);
    for (i = 0; i < KINDS; i++)
        check(wearers[i].verdict == expected[i], v->what);
}

/* The example of docs/C-API.md. */
static void test_example(void)
{
    static const struct arc arc = {0, 0, 3, 3, 0, 0};
    static const uint8_t round[] = {0};
    struct plan plan = {0, 1, round, 1};
    struct wearer wearers[] = {{0, 3, 9, 0}, {0, 2, 9, 0}, {0, 4, 3, 0}, {1, 3, 9, 0}};
    struct lists lists;
    struct model m = of_arcs(&lists, 1, 0, &arc, 1);

    warded("the example of docs/C-API.md", &m, wearers, 4, plan, CHARGEPLAN_IMPOSSIBLE_STEP, 1);
    check(wearers[0].verdict == 0 && wearers[1].verdict == 15 && wearers[2].verdict == 6 && wearers[3].verdict == 2,
        "the example of docs/C-API.md");
}

/* Every number that can be a verdict. */
void test_ward_verdicts(void)
{
    static const uint8_t draws[] = {DRAWS}, leaves[] = {LEAVES}, stays[] = {STAYS}, plain[] = {PLAIN}, no_arc[] = {ARCS};
    static const struct verdicts all[] = {
        {"verdict 0", {0, 1, gaining, 1}, 0, {0, 0, 13}},
        {"verdict 0 of another mode", {0, 1, stays, 1}, 0, {13, 13, 0}},
        {"verdict 11: no cycle", {1, 0, gaining, 1}, 0, {11, 11, 11}},
        {"verdict 11: no plan", {0, 0, NULL, 0}, 0, {11, 11, 11}},
        {"verdict 11: fewer arcs than p + q", {0, 1, gaining, 0}, 0, {11, 11, 11}},
        {"verdict 11: more arcs than p + q", {0, 1, gaining, 2}, 0, {11, 11, 11}},
        {"verdict 12", {0, 1, no_arc, 1}, 0, {12, 12, 12}},
        {"verdict 14", {0, 1, leaves, 1}, 0, {14, 14, 13}},
        {"verdicts 16 and 15", {0, 1, draws, 1}, 0, {16, 15, 13}},
        {"verdict 24", {0, 1, gaining, 1}, 1, {24, 24, 13}},
        {"verdict 24 of another mode", {0, 1, stays, 1}, 1, {13, 13, 24}},
        {"verdict 17", {0, 1, plain, 1}, 0, {17, 17, 13}},
        {"verdict 0 of a plan without the barred colour", {0, 1, plain, 1}, 1, {0, 0, 13}},
        {"a bit at k is ignored", {0, 1, gaining, 1}, 0xfe, {0, 0, 13}},
    };
    struct lists lists;
    struct model m = knee(&lists);
    size_t i, first;

    test_example();
    for (i = 0; i < sizeof all / sizeof all[0]; i++)
        for (first = 0; first < KINDS; first++) {
            m.barred = all[i].barred;
            /* The model's own start mode is not looked at. */
            m.start = (uint32_t)first * 715827883u;
            one_order(&all[i], &m, first);
        }
}

/* The first verdict that is not 0: two wearers of any kinds at any two places among others who can have the plan. */
void test_ward_first(void)
{
    enum { COUNT = 6 };
    struct lists lists;
    struct model m = knee(&lists);
    struct wearer wearers[COUNT];
    size_t i, j, x, y, w;

    for (i = 0; i < COUNT; i++)
        for (j = i + 1; j < COUNT; j++)
            for (x = 0; x < KINDS; x++)
                for (y = 0; y < KINDS; y++) {
                    struct warded answer;

                    for (w = 0; w < COUNT; w++)
                        wearers[w] = kinds[w % OTHER_MODE];
                    wearers[i] = kinds[x];
                    wearers[j] = kinds[y];
                    answer = ward("the first other verdict", &m, wearers, COUNT, good);
                    check((answer.number == 0) == (x < OTHER_MODE && y < OTHER_MODE), "yes where all are yes");
                    check(answer.detail == (x >= OTHER_MODE ? i : y >= OTHER_MODE ? j : 0), "the place of the first other verdict");
                }
}

/* Without wearers the answer is yes, whatever the plan is. */
void test_ward_empty(void)
{
    static const uint8_t no_arc[] = {255};
    static const struct plan none = {0, 0, NULL, 0}, wrong = {0, 1, no_arc, 1}, unequal = {7, UINT32_MAX, gaining, 1};
    struct lists lists;
    struct model m = knee(&lists), no_arcs = without_arcs(64, 4);

    warded("no wearers", &m, NULL, 0, good, CHARGEPLAN_YES, 0);
    warded("no wearers, no plan", &m, NULL, 0, none, CHARGEPLAN_YES, 0);
    warded("no wearers, an arc that there is not", &m, NULL, 0, wrong, CHARGEPLAN_YES, 0);
    warded("no wearers, wrong lengths", &m, NULL, 0, unequal, CHARGEPLAN_YES, 0);
    warded("no wearers, no arcs", &no_arcs, NULL, 0, good, CHARGEPLAN_YES, 0);
    m.barred = 0xff;
    warded("no wearers, a barred colour", &m, NULL, 0, good, CHARGEPLAN_YES, 0);
}

/* The model is refused before any wearer: of none, of one of each kind, and with a wrong plan. ward() checks that no verdict is written. */
static void model_refused(const char *what, const struct model *m, uint32_t number, uint64_t detail)
{
    static const struct plan wrong = {1, 1, gaining, 1};
    struct wearer wearers[KINDS];

    memcpy(wearers, kinds, sizeof wearers);
    warded(what, m, NULL, 0, good, number, detail);
    warded(what, m, NULL, 0, wrong, number, detail);
    warded(what, m, wearers, 1, good, number, detail);
    warded(what, m, wearers, KINDS, good, number, detail);
    warded(what, m, wearers, KINDS, wrong, number, detail);
    warded(what, m, wearers + NO_MODE, KINDS - NO_MODE, wrong, number, detail);
}

/* 1 and 4, with numbers that are not cut down. */
void test_ward_numbers(void)
{
    struct lists lists;
    struct model m = knee(&lists);

    each_wrong_number(&m, model_refused);
    m = without_arcs(0, 0);
    model_refused("1: n 0 and start mode 0", &m, CHARGEPLAN_MODE_COUNT, 0);
    m.n = CHARGEPLAN_MODES_MOST + 1;
    m.start = CHARGEPLAN_MODES_MOST + 1;
    model_refused("1 and not 2", &m, CHARGEPLAN_MODE_COUNT, 0);
}

void test_ward_lists(void)
{
    each_wrong_list(model_refused);
}

/* 5 by every part at every place, with the lowest such arc as detail; and at every place of 255 arcs. */
void test_ward_arcs(void)
{
    static const struct arc unfit[] = {{2, 0, 0, 0, 0, 0}, {255, 0, 0, 0, 0, 0}, {0, 2, 0, 0, 0, 0}, {0, 255, 0, 0, 0, 0},
        {0, 0, 10001, 0, 0, 0}, {0, 0, UINT16_MAX, 0, 0, 0}, {0, 0, 0, 10001, 0, 0}, {0, 0, 0, UINT16_MAX, 0, 0}, {0, 0, 0, 0, 2, 0},
        {0, 0, 0, 0, 128, 0}, {0, 0, 0, 0, 0, 16}, {0, 0, 0, 0, 0, 255}};
    struct lists lists;
    struct model m;
    size_t at, i;

    for (at = 0; at < ARCS; at++)
        for (i = 0; i < sizeof unfit / sizeof unfit[0]; i++) {
            m = knee(&lists);
            put(&lists, at, unfit[i]);
            model_refused("5: an arc", &m, CHARGEPLAN_UNFIT_ARC, at);
            put(&lists, ARCS - 1, unfit[i]);
            model_refused("5: the lowest arc", &m, CHARGEPLAN_UNFIT_ARC, at);
        }
    memset(&lists, 0, sizeof lists);
    m = listed(1, 0, &lists, CHARGEPLAN_ARCS_MOST);
    for (at = 0; at < CHARGEPLAN_ARCS_MOST; at++) {
        lists.actions[at] = 16;
        model_refused("5: one of 255 arcs", &m, CHARGEPLAN_UNFIT_ARC, at);
        lists.actions[at] = 0;
    }
}

/* What may be wrong, in the order in which it is looked at: of the model, then of a wearer, then of the plan. */
enum { MODES, LISTS, COLOURS, ARC, START, LEVELS, LENGTH, FAULTS };

/* Every set of faults, of a ward without wearers, of one wearer, and of one behind a wearer without START and LEVELS. */
void test_ward_order(void)
{
    static const char what[] = "the order of the refusals";
    static const uint32_t numbers[FAULTS + 1] = {1, 3, 4, 5, 2, 6, 11, 0};
    struct lists lists;
    unsigned faults;

    for (faults = 0; faults < 1u << FAULTS; faults++) {
        struct model m = knee(&lists);
        struct wearer wearers[2] = {{0, 5, 5, 0}, {0, 5, 5, 0}};
        struct plan plan = good;
        unsigned first = 0, alone;

        while (first < FAULTS && !(faults >> first & 1))
            first++;
        m.n = faults >> MODES & 1 ? 65 : 2;
        m.gains_length -= faults >> LISTS & 1;
        m.k = faults >> COLOURS & 1 ? 5 : 1;
        lists.draws[3] = faults >> ARC & 1 ? 10001 : 0;
        wearers[1].start = faults >> START & 1 ? 70 : 0;
        wearers[1].b = faults >> LEVELS & 1 ? 4 : 5;
        plan.p = faults >> LENGTH & 1;
        alone = first <= ARC ? numbers[first] : 0;
        warded(what, &m, NULL, 0, plan, alone, first == ARC ? 3 : 0);
        warded(what, &m, wearers + 1, 1, plan, numbers[first], first == ARC ? 3 : 0);
        /* The first wearer has 11 where the plan is wrong, whatever the second has. */
        if (first > ARC && plan.p > 0)
            warded(what, &m, wearers, 2, plan, CHARGEPLAN_PLAN_LENGTH, 0);
        else
            warded(what, &m, wearers, 2, plan, numbers[first], first == ARC ? 3 : first == FAULTS || first < ARC ? 0 : 1);
    }
}

/* Start mode, c and b of any size, each with each: none is cut down. */
void test_ward_sizes(void)
{
    static const uint32_t sizes[] = {0, 1, 2, 5, 255, 256, 257, 8191, 8192, 65535, 65536, 65537, 0x1000000u, 0x1000001u, 0x7fffffffu,
        0x80000000u, 0x80000001u, UINT32_MAX};
    enum { COUNT = sizeof sizes / sizeof sizes[0] };
    static struct wearer wearers[COUNT * COUNT * COUNT];
    static const uint32_t beyond[] = {1, 256, 65536, 0x80000000u, UINT32_MAX};
    struct lists lists;
    struct model m = knee(&lists);
    size_t i;

    for (i = 0; i < COUNT * COUNT * COUNT; i++) {
        struct wearer w = {sizes[i % COUNT], sizes[i / COUNT % COUNT], sizes[i / COUNT / COUNT], 0};

        wearers[i] = w;
    }
    check(ward("numbers of any size", &m, wearers, COUNT * COUNT * COUNT, good).detail == 1, "numbers of any size");
    for (i = 0; i < sizeof beyond / sizeof beyond[0]; i++) {
        struct plan longer = good, p_and_q = good;

        longer.p = beyond[i];
        warded("11: p of any size", &m, wearers, COUNT, longer, CHARGEPLAN_PLAN_LENGTH, 0);
        longer.q = UINT32_MAX - beyond[i] + 2;
        warded("11: p + q is 2^32 + 1", &m, wearers, COUNT, longer, CHARGEPLAN_PLAN_LENGTH, 0);
        p_and_q.q += beyond[i];
        warded("11: q of any size", &m, wearers, COUNT, p_and_q, CHARGEPLAN_PLAN_LENGTH, 0);
    }
}

/* Every byte of barred colours, for each k and each set of colours in the cycle behind all of them in the prefix. */
void test_ward_barred(void)
{
    struct lists lists;
    uint32_t k, barred, colours;

    for (k = 0; k <= CHARGEPLAN_COLOURS_MOST; k++) {
        struct model m = every_colouring(&lists, k);
        uint32_t all = (1u << k) - 1;

        for (barred = 0; barred <= UINT8_MAX; barred++)
            for (colours = 0; colours <= all; colours++) {
                uint8_t bytes[] = {(uint8_t)all, (uint8_t)colours};
                struct plan plan = {1, 1, bytes, 2};
                struct wearer wearers[] = {{0, 0, 0, 0}, {1, 0, 0, 0}};
                uint32_t number = (colours & barred) != 0 ? CHARGEPLAN_BARRED_COLOUR
                    : (all & ~(colours | barred)) != 0    ? CHARGEPLAN_MISSING_COLOUR
                                                          : CHARGEPLAN_YES;

                m.barred = (uint8_t)barred;
                ward("every byte of barred colours", &m, wearers, 2, plan);
                check(wearers[0].verdict == number && wearers[1].verdict == CHARGEPLAN_START_MODE, "every byte of barred colours");
            }
    }
}

/* p and q are not exchanged, and the prefix is no part of the cycle: the first arc leaves mode 0, the last two keep to mode 1. */
static void test_parts_of_a_plan(void)
{
    static const uint8_t bytes[] = {LEAVES, STAYS, STAYS};
    static const uint8_t expected[] = {14, 0, 0, 11};
    struct lists lists;
    struct model m = knee(&lists);
    uint32_t p;

    for (p = 0; p <= 3; p++) {
        struct plan plan = {p, 3 - p, bytes, 3};
        struct wearer wearers[] = {{0, 0, 0, 0}, {0, 8191, 8191, 0}};

        warded("p and q", &m, wearers, 2, plan, expected[p], 0);
        check(wearers[0].verdict == expected[p] && wearers[1].verdict == expected[p], "p and q");
    }
}

/* Plans up to 65,535 arcs, and longer ones, which are 11 of each wearer but those with 2 and 6. */
void test_ward_plans(void)
{
    enum { MOST = CHARGEPLAN_PLAN_MOST };
    static uint8_t bytes[MOST + 2];
    struct plan plan = {MOST - 1, 1, bytes, MOST};
    struct lists lists;
    struct model m = knee(&lists);
    struct wearer wearers[KINDS], late[] = {{0, 8191, 8191, 0}, {0, 8190, 8191, 0}, {0, 0, 8191, 0}};

    test_parts_of_a_plan();
    memcpy(wearers, kinds, sizeof wearers);
    memset(bytes, GAINS, sizeof bytes);
    warded("a prefix of 65,534 arcs", &m, wearers, KINDS, plan, CHARGEPLAN_OTHER_MODE, OTHER_MODE);
    plan.q = 2;
    plan.length = MOST + 1;
    warded("11: 65,536 arcs", &m, wearers, KINDS, plan, CHARGEPLAN_PLAN_LENGTH, 0);
    check(wearers[OTHER_MODE].verdict == CHARGEPLAN_PLAN_LENGTH && wearers[NO_MODE].verdict == CHARGEPLAN_START_MODE
            && wearers[OVERSIZED].verdict == CHARGEPLAN_LEVELS, "11: 65,536 arcs");
    plan.p = 0;
    plan.q = MOST + 2;
    plan.length = MOST + 2;
    warded("11: a cycle of 65,537 arcs", &m, wearers, KINDS, plan, CHARGEPLAN_PLAN_LENGTH, 0);
    plan.q = 1;
    warded("11: 65,537 arcs, and p + q is 1", &m, wearers, KINDS, plan, CHARGEPLAN_PLAN_LENGTH, 0);
    memset(bytes, DRAWS, 8191);
    plan.p = 8191;
    plan.q = MOST - 8191;
    plan.length = MOST;
    warded("15: the last step of a long prefix", &m, late, 3, plan, CHARGEPLAN_IMPOSSIBLE_STEP, 1);
    check(late[0].verdict == CHARGEPLAN_YES && late[2].verdict == CHARGEPLAN_IMPOSSIBLE_STEP, "15: the last step of a long prefix");
}

/* Wearers who can have the plan of one arc that does nothing, with junk in the verdicts. */
static struct chargeplan_wearer *many(size_t count)
{
    struct chargeplan_wearer *wearers = copied(NULL, count * sizeof *wearers);
    size_t i;

    for (i = 0; i < count; i++) {
        wearers[i].start = 0;
        wearers[i].c = wearers[i].b = (uint32_t)(i % (CHARGEPLAN_BOUND_MOST + 1));
        wearers[i].verdict = (uint8_t)(i * 5 + 1);
    }
    return wearers;
}

/* A ward of so many of them, of which the one at this place, if there is one, has a start mode that is none; all verdicts are right. */
static void long_ward(const char *what, struct chargeplan_wearer *wearers, size_t count, size_t other)
{
    struct model m = model_a();
    struct chargeplan_warded answer;
    size_t i, right = 0;

    if (other < count)
        wearers[other].start = UINT32_MAX;
    answer = chargeplan_ward(wearers, count, m.n, m.k, m.sources, 1, m.targets, 1, m.draws, 1, m.gains, 1, m.colours, 1, m.actions, 1, 0, 0,
        1, zeros, 1);
    check(answer.number == (other < count ? CHARGEPLAN_START_MODE : CHARGEPLAN_YES), what);
    check(answer.detail == (other < count ? other : 0), what);
    for (i = 0; i < count; i++) {
        uint32_t level = (uint32_t)(i % (CHARGEPLAN_BOUND_MOST + 1));

        right += wearers[i].verdict == (i == other ? CHARGEPLAN_START_MODE : CHARGEPLAN_YES)
            && wearers[i].start == (i == other ? UINT32_MAX : 0) && wearers[i].c == level && wearers[i].b == level;
    }
    check(right == count, what);
    if (other < count)
        wearers[other].start = 0;
}

/*
 * Lists of many lengths, the last as long as asked for, with the other verdict at places beyond 8, 16 and, where the last list is as long,
 * 24 bits; and lists of the first lengths without another verdict.
 */
void test_ward_long(unsigned long count)
{
    static const size_t places[] = {0, 254, 255, 256, 257, 511, 512}, far[] = {65535, 65536};
    size_t shorter = 520, longer = 65544, i;
    struct chargeplan_wearer *wearers = many(longer);

    for (i = 0; i < sizeof places / sizeof places[0]; i++)
        long_ward("a place in a list", wearers, shorter, places[i]);
    long_ward("a list without another verdict", wearers, shorter, shorter);
    for (i = 0; i < sizeof far / sizeof far[0]; i++)
        long_ward("a place in a long list", wearers, longer, far[i]);
    long_ward("a long list without another verdict", wearers, longer, longer);
    free(wearers);
    wearers = many(count);
    long_ward("the last place of a long list", wearers, count, count - 1);
    free(wearers);
}

/* A ward over a struct is the one of the entry, whatever start mode the struct has. */
static void same_ward(const char *what, const struct model *m, struct plan plan)
{
    struct chargeplan_model one = {
        m->n, UINT32_MAX - m->start, m->k, m->sources, m->targets, m->draws, m->gains, m->colours, m->actions, m->sources_length};
    struct chargeplan_wearer list[KINDS];
    struct chargeplan_warded got, none = chargeplan_model_ward(NULL, 0, &one, m->barred, plan.p, plan.q, plan.bytes);
    struct wearer wearers[KINDS];
    struct warded entry;
    size_t i, right = 0;

    memcpy(wearers, kinds, sizeof wearers);
    entry = ward(what, m, NULL, 0, plan);
    check(none.number == entry.number && none.detail == entry.detail, what);
    entry = ward(what, m, wearers, KINDS, plan);
    for (i = 0; i < KINDS; i++) {
        struct chargeplan_wearer w = {kinds[i].start, kinds[i].c, kinds[i].b, 0};

        list[i] = w;
    }
    got = chargeplan_model_ward(list, KINDS, &one, m->barred, plan.p, plan.q, plan.bytes);
    check(got.number == entry.number && got.detail == entry.detail, what);
    for (i = 0; i < KINDS; i++)
        right += list[i].verdict == wearers[i].verdict && list[i].start == kinds[i].start && list[i].c == kinds[i].c
            && list[i].b == kinds[i].b;
    check(right == KINDS, what);
}

void test_ward_functions(void)
{
    static const uint8_t leaving[] = {GAINS, LEAVES, STAYS, STAYS, STAYS};
    static const struct plan longer = {2, 3, leaving, 5}, shorter = {3, 1, leaving, 4}, no_cycle = {1, 0, leaving, 1},
                             open = {0, 3, leaving, 3};
    struct lists lists;
    struct model m = knee(&lists);

    same_ward("one arc", &m, good);
    same_ward("a prefix and a cycle", &m, longer);
    same_ward("another cut", &m, shorter);
    same_ward("11", &m, no_cycle);
    same_ward("14", &m, open);
    m.barred = 1;
    same_ward("24", &m, longer);
    m.barred = 0xfe;
    same_ward("bits at or above k", &m, longer);
    lists.targets[1] = 2;
    same_ward("5", &m, good);
    m.k = 5;
    same_ward("4", &m, good);
    m.n = 0;
    same_ward("1", &m, good);
}
