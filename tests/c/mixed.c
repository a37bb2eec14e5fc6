/* 22: a step with another n, number of arcs or bound than the gauge was started with. */
#include "calls.h"

/* A knee of this size, whose arcs change nothing. */
static struct model knee(uint32_t n, size_t arcs)
{
    return model(n, 0, arcs, zeros, zeros, nothing, nothing, zeros);
}

/* A gauge that is mixed up for this model and bound: 22, whether there is such an arc or not. */
static void mixed(const char *what, const struct model *m, uint32_t b, struct gauge g)
{
    stepped(what, &g, m, b, 0, CHARGEPLAN_MIXED_GAUGE, 0);
    stepped(what, &g, m, b, UINT32_MAX, CHARGEPLAN_MIXED_GAUGE, 0);
}

/* Gauges of example G mixed up in each of the three, in two, and in all of them. */
static void test_fields(void)
{
    struct model m = model_g();
    struct gauge own = gauge_at(&m, 5, 0, 5, 9);
    unsigned fields, by;

    for (fields = 1; fields <= MIX_ALL; fields++)
        for (by = 1; by <= UINT8_MAX; by++) {
            mixed("22: above", &m, 5, mixed_up(own, fields, by));
            mixed("22: below", &m, 5, mixed_up(own, fields, 0u - by));
        }
    for (by = 256; by <= UINT16_MAX; by *= 2)
        mixed("22: the bound's low byte is right", &m, 5, mixed_up(own, MIX_BOUND, by));
    mixed("22: n and the number of arcs exchanged", &m, 5, mixed_up(mixed_up(own, MIX_MODES, 1), MIX_ARCS, 0u - 1));
    mixed("22: n and b exchanged", &m, 5, mixed_up(mixed_up(own, MIX_MODES, 3), MIX_BOUND, 0u - 3));
    mixed("22: the number of arcs and b exchanged", &m, 5, mixed_up(mixed_up(own, MIX_ARCS, 2), MIX_BOUND, 0u - 2));
}

/* The size of a knee and its bound. */
struct size {
    uint32_t n, arcs, b;
};

/* Sizes and bounds at their limits and between them, in every combination. */
enum { SIZES = 4 * 5 * 6 };

static struct size size_at(unsigned i)
{
    static const uint32_t modes[] = {1, 2, 63, CHARGEPLAN_MODES_MOST}, arcs[] = {0, 1, 2, 254, CHARGEPLAN_ARCS_MOST},
                          bounds[] = {0, 1, 2, 256, 8190, CHARGEPLAN_BOUND_MOST};
    struct size s = {modes[i % 4], arcs[i / 4 % 5], bounds[i / 20]};
    return s;
}

/* A gauge of a knee is refused by each other knee and bound, and then goes on with its own. A gauge of zeros is refused by all. */
static void test_sizes(void)
{
    unsigned i, j;

    for (i = 0; i < SIZES; i++) {
        struct size own = size_at(i);
        struct model m = knee(own.n, own.arcs);
        struct gauge g;

        started("a knee of any size", &g, &m, 0, own.b, CHARGEPLAN_YES, 0);
        for (j = 0; j < SIZES; j++) {
            struct size other = size_at(j);
            struct model of_other = knee(other.n, other.arcs);

            if (j != i)
                stepped("22: another knee or bound", &g, &of_other, other.b, 0, CHARGEPLAN_MIXED_GAUGE, 0);
        }
        stepped("its own knee after the others", &g, &m, own.b, 0, own.arcs == 0 ? CHARGEPLAN_ARC_NUMBER : CHARGEPLAN_YES, 0);
        mixed("22: a gauge of zeros", &m, own.b, no_gauge);
    }
}

/* Numbers that no start gives. A call that has them too is refused before 22. */
static void test_unstartable(void)
{
    static const uint32_t modes[] = {0, CHARGEPLAN_MODES_MOST + 1, UINT8_MAX}, bounds[] = {CHARGEPLAN_BOUND_MOST + 1, UINT16_MAX};
    struct model m = knee(2, 3);
    struct gauge g;
    size_t i;

    for (i = 0; i < sizeof modes / sizeof modes[0]; i++) {
        struct model other = knee(modes[i], 3);

        g = gauge_at(&other, 5, 0, 5, 9);
        mixed("22: no such n", &m, 5, g);
        stepped("1: no such n", &g, &other, 5, 0, CHARGEPLAN_MODE_COUNT, 0);
    }
    for (i = 0; i < sizeof bounds / sizeof bounds[0]; i++) {
        g = gauge_at(&m, bounds[i], 0, 5, 9);
        mixed("22: no such bound", &m, 5, g);
        stepped("6: no such bound", &g, &m, bounds[i], 0, CHARGEPLAN_LEVELS, 0);
    }
    started("6: a refused start", &g, &m, 6, 5, CHARGEPLAN_LEVELS, 0);
    mixed("22: the gauge of a refused start", &m, 5, g);
}

/* The gauge's bound alone is compared with b, and its charge is not above b: all of small ones. */
static void test_bounds(void)
{
    enum { MOST = 6 };
    struct model m = knee(2, 3);
    uint32_t charge, bound, b;

    for (charge = 0; charge <= MOST; charge++)
        for (bound = 0; bound <= MOST; bound++)
            for (b = 0; b <= MOST; b++) {
                struct gauge g = gauge_at(&m, bound, 0, charge, 9);

                stepped("charge, bound and b", &g, &m, b, 0,
                    charge > b ? CHARGEPLAN_LEVELS : bound != b ? CHARGEPLAN_MIXED_GAUGE : CHARGEPLAN_YES, 0);
            }
}

/* After 6 and before 12, 13 and both kinds of 15. That it is after 1 to 6 is also in the tests of these numbers. */
static void test_order(void)
{
    static const struct {
        uint32_t mode, charge;
        uint64_t spill;
        uint32_t arc, number;
    } steps[] = {
        {0, 5, 9, 1, CHARGEPLAN_YES},
        {0, 6, 9, 1, CHARGEPLAN_LEVELS},
        {255, UINT16_MAX, UINT64_MAX, UINT32_MAX, CHARGEPLAN_LEVELS},
        {0, 5, 9, 3, CHARGEPLAN_ARC_NUMBER},
        {0, 5, 9, UINT32_MAX, CHARGEPLAN_ARC_NUMBER},
        {0, 5, 9, 2, CHARGEPLAN_OTHER_MODE},
        {255, 5, 9, 0, CHARGEPLAN_OTHER_MODE},
        {0, 4, 9, 1, CHARGEPLAN_IMPOSSIBLE_STEP},
        {0, 5, UINT64_MAX, 0, CHARGEPLAN_IMPOSSIBLE_STEP},
    };
    struct model m = model_g();
    size_t i;
    unsigned fields;

    for (i = 0; i < sizeof steps / sizeof steps[0]; i++)
        for (fields = 0; fields <= MIX_ALL; fields++) {
            struct gauge g = mixed_up(gauge_at(&m, 5, steps[i].mode, steps[i].charge, steps[i].spill), fields, 1);
            int before = fields == 0 || steps[i].number == CHARGEPLAN_LEVELS;

            stepped("6, 22 and the others", &g, &m, 5, steps[i].arc, before ? steps[i].number : CHARGEPLAN_MIXED_GAUGE, 0);
        }
}

void test_mixed_gauges(void)
{
    test_fields();
    test_sizes();
    test_unstartable();
    test_bounds();
    test_order();
}

/* A model like example G's in n and the number of arcs, and in nothing else. */
static struct model model_like_g(void)
{
    static const uint8_t sources[] = {1, 0, 0}, targets[] = {0, 0, 1}, colours[] = {8, 4, 2}, actions[] = {15, 1, 8};
    static const uint16_t draws[] = {0, 0, 1}, gains[] = {2, 4, 0};
    struct model m = model(2, 4, 3, sources, targets, draws, gains, colours);

    m.start = 1;
    m.actions = actions;
    return m;
}

/* A gauge started with example G makes a step with this model. */
static void not_told(const char *what, struct model m, struct stop stop)
{
    struct model own = model_g();
    struct gauge g;

    started(what, &g, &own, 5, 5, CHARGEPLAN_YES, 0);
    moved(what, &g, &m, 5, stop);
}

/* Any part of the model but n and the number of arcs may be another. The step goes by it. */
static void test_parts(void)
{
    static const struct stop as_own = {1, 1, 0, 0}, to_target = {1, 0, 0, 0}, by_draw = {1, 1, 5, 0}, by_gain = {1, 1, 4, 0},
                             by_both = {1, 1, 5, 4}, from_source = {2, 1, 5, 0};
    struct model own = model_g(), like = model_like_g(), m = own;

    not_told("its own model", m, as_own);
    m.k = like.k;
    not_told("another k", m, as_own);
    m.colours = like.colours;
    not_told("other colours", m, as_own);
    m = own;
    m.start = like.start;
    not_told("another start mode", m, as_own);
    m = own;
    m.targets = like.targets;
    not_told("other targets", m, to_target);
    m = own;
    m.draws = like.draws;
    not_told("other draws", m, by_draw);
    m.gains = like.gains;
    not_told("other draws and gains", m, by_both);
    m.draws = own.draws;
    not_told("other gains", m, by_gain);
    m = own;
    m.sources = like.sources;
    not_told("other sources", m, from_source);
    m = own;
    m.actions = like.actions;
    not_told("other actions", m, as_own);
}

/* Another model with the same n, number of arcs and bound is not told apart: each step goes by the arcs that it is given. */
void test_other_models(void)
{
    static const struct stop own_steps[] = {{1, 1, 0, 0}, {0, 0, 5, 2}, {2, 1, 4, 2}},
                             like_steps[] = {{0, 0, 2, 0}, {1, 0, 5, 1}, {2, 1, 4, 2}};
    struct model own = model_g(), like = model_like_g();
    struct gauge g;

    test_parts();
    started("two models in turn", &g, &own, 5, 5, CHARGEPLAN_YES, 0);
    moved("two models in turn", &g, &own, 5, own_steps[0]);
    stepped("13 with its own model", &g, &own, 5, 0, CHARGEPLAN_OTHER_MODE, 0);
    moved("no 13 with the other", &g, &like, 5, like_steps[0]);
    stepped("15 with its own model", &g, &own, 5, 1, CHARGEPLAN_IMPOSSIBLE_STEP, 0);
    moved("no 15 with the other", &g, &like, 5, like_steps[1]);
    stepped("13 with the other", &g, &like, 5, 0, CHARGEPLAN_OTHER_MODE, 0);
    moved("no 13 with its own model", &g, &own, 5, own_steps[1]);
    moved("two models in turn", &g, &like, 5, like_steps[2]);
    moved("two models in turn", &g, &own, 5, own_steps[2]);
    stepped("12 with the other", &g, &like, 5, 3, CHARGEPLAN_ARC_NUMBER, 0);
}

/* The numbers from the start are kept through many steps, made and refused. */
void test_kept_numbers(void)
{
    enum { ROUNDS = 1000, MODES = CHARGEPLAN_MODES_MOST, ARCS = CHARGEPLAN_ARCS_MOST, BOUND = CHARGEPLAN_BOUND_MOST };
    static uint16_t gains[ARCS];
    struct model e = model_e(), m = model(MODES, 0, ARCS, zeros, zeros, nothing, gains, zeros);
    struct gauge g;
    uint32_t i;

    for (i = 0; i < ARCS; i++)
        gains[i] = CHARGEPLAN_GAIN_MOST;
    started("example E, many rounds", &g, &e, 10, 10, CHARGEPLAN_YES, 0);
    for (i = 0; i < ROUNDS; i++) {
        stepped("example E, many rounds", &g, &e, 10, 0, CHARGEPLAN_YES, 0);
        stepped("12 among the rounds", &g, &e, 10, 2, CHARGEPLAN_ARC_NUMBER, 0);
        stepped("13 among the rounds", &g, &e, 10, 0, CHARGEPLAN_OTHER_MODE, 0);
        stepped("22 among the rounds", &g, &m, 10, 0, CHARGEPLAN_MIXED_GAUGE, 0);
        stepped("22 among the rounds, the bound", &g, &e, 11, 1, CHARGEPLAN_MIXED_GAUGE, 0);
        stepped("6 among the rounds", &g, &e, 9, 1, CHARGEPLAN_LEVELS, 0);
        stepped("example E, many rounds", &g, &e, 10, 1, CHARGEPLAN_YES, 0);
    }
    check_gauge("example E, many rounds", g, gauge_at(&e, 10, 0, 7, 3));
    started("the greatest numbers", &g, &m, BOUND, BOUND, CHARGEPLAN_YES, 0);
    for (i = 0; i < ROUNDS; i++)
        stepped("the greatest numbers", &g, &m, BOUND, i % ARCS, CHARGEPLAN_YES, 0);
    check_gauge("the greatest numbers", g, gauge_at(&m, BOUND, 0, BOUND, (uint64_t)ROUNDS * CHARGEPLAN_GAIN_MOST));
}
