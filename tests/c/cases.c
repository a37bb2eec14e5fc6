#include "calls.h"

const struct switches all_on = {{CHARGEPLAN_ALL_ON}}, all_off;

/* The models of document 01's examples, with start mode 0. */
const uint8_t zeros[256];
const uint16_t nothing[256];
static const uint8_t ones[] = {1, 1, 1};
static const uint16_t draw_one[] = {1}, e_draws[] = {0, 3}, e_gains[] = {3, 0}, j_draws[] = {2, 0}, j_gains[] = {0, 2};
static const uint8_t e_sources[] = {0, 1}, e_targets[] = {1, 0};
const uint8_t g_sources[] = {0, 0, 1}, g_targets[] = {0, 1, 1}, g_colours[] = {0, 0, 1};
const uint16_t g_draws[] = {0, 5, 0}, g_gains[] = {1, 0, 0};
static const uint8_t j_colours[] = {1, 2};

struct model model(uint32_t n, uint32_t k, size_t arcs, const uint8_t *sources, const uint8_t *targets, const uint16_t *draws,
    const uint16_t *gains, const uint8_t *colours)
{
    struct model m = {n, 0, k, sources, arcs, targets, arcs, draws, arcs, gains, arcs, colours, arcs, zeros, arcs, NULL, 0, all_on};
    return m;
}

struct model listed(uint32_t n, uint32_t k, const struct lists *lists, size_t arcs)
{
    struct model m = model(n, k, arcs, lists->sources, lists->targets, lists->draws, lists->gains, lists->colours);

    m.actions = lists->actions;
    return m;
}

struct switches with_on(struct switches s, size_t a)
{
    s.on[a / 64] |= (uint64_t)1 << a % 64;
    return s;
}

struct switches with_off(struct switches s, size_t a)
{
    s.on[a / 64] &= ~((uint64_t)1 << a % 64);
    return s;
}

void put(struct lists *to, size_t at, struct arc arc)
{
    to->sources[at] = (uint8_t)arc.source;
    to->targets[at] = (uint8_t)arc.target;
    to->draws[at] = (uint16_t)arc.draw;
    to->gains[at] = (uint16_t)arc.gain;
    to->colours[at] = (uint8_t)arc.colours;
    to->actions[at] = (uint8_t)arc.action;
}

struct model of_arcs(struct lists *to, uint32_t n, uint32_t k, const struct arc *arcs, size_t count)
{
    size_t a;

    for (a = 0; a < count; a++)
        put(to, a, arcs[a]);
    return listed(n, k, to, count);
}

struct model without_arcs(uint32_t n, uint32_t k)
{
    return model(n, k, 0, NULL, NULL, NULL, NULL, NULL);
}

struct model without_last(const struct model *m)
{
    size_t arcs = m->sources_length - (m->sources_length > 0);
    struct model r = model(m->n, m->k, arcs, m->sources, m->targets, m->draws, m->gains, m->colours);

    r.start = m->start;
    r.actions = m->actions;
    r.barred = m->barred;
    r.switches = m->switches;
    return r;
}

struct model model_a(void)
{
    return model(1, 0, 1, zeros, zeros, nothing, nothing, zeros);
}

struct model model_b(void)
{
    return model(1, 0, 1, zeros, zeros, draw_one, nothing, zeros);
}

struct model model_e(void)
{
    return model(2, 0, 2, e_sources, e_targets, e_draws, e_gains, zeros);
}

struct model model_g(void)
{
    return model(2, 1, 3, g_sources, g_targets, g_draws, g_gains, g_colours);
}

struct model model_j(void)
{
    return model(1, 2, 2, zeros, zeros, j_draws, j_gains, j_colours);
}

/* The judged and searched ones of document 01. */
void check_examples(const struct examples *of)
{
    static const uint8_t arc0[] = {0}, arc1[] = {1}, arcs01[] = {0, 1}, arcs10[] = {1, 0}, plan_i[] = {0, 0, 0, 0, 0, 1, 2};

    found("example A", &of->a, 0, 0);
    refused("example B", &of->b, 0, 0, CHARGEPLAN_NO_PLAN, 0);
    judged("example C", &of->b, 5, 5, 0, 1, arc0, 1, CHARGEPLAN_FALLING_CYCLE, 0);
    judged("example D", &of->b, 1, 1, 0, 1, arc0, 1, CHARGEPLAN_IMPOSSIBLE_STEP, 1);
    judged("example E", &of->e, 10, 10, 0, 2, arcs01, 2, CHARGEPLAN_YES, 0);
    judged("example F", &of->e, 2, 2, 0, 2, arcs01, 2, CHARGEPLAN_IMPOSSIBLE_STEP, 1);
    found("example G", &of->g, 0, 5);
    refused("example H", &of->g, 0, 4, CHARGEPLAN_NO_PLAN, 0);
    judged("example I", &of->g, 0, 5, 6, 1, plan_i, 7, CHARGEPLAN_YES, 0);
    judged("example J", &of->j, 0, 2, 0, 2, arcs10, 2, CHARGEPLAN_YES, 0);
    judged("example K", &of->j, 0, 2, 0, 2, arcs01, 2, CHARGEPLAN_IMPOSSIBLE_STEP, 0);
    judged("example L", &of->j, 0, 2, 0, 1, arc1, 1, CHARGEPLAN_MISSING_COLOUR, 0);
}

void test_examples(void)
{
    struct examples of = {model_a(), model_b(), model_e(), model_g(), model_j()};

    check_examples(&of);
}

/* 1, 2 and 4, and their order. */
void test_numbers(void)
{
    static const uint32_t modes[] = {0, CHARGEPLAN_MODES_MOST + 1, 256, 257, 65537, UINT32_MAX}, starts[] = {2, 3, 256, 65536, UINT32_MAX},
                          colours[] = {CHARGEPLAN_COLOURS_MOST + 1, 8, 32, 256, 65536, UINT32_MAX};
    struct model m;
    size_t i;

    for (i = 0; i < sizeof modes / sizeof modes[0]; i++) {
        m = model_g();
        m.n = modes[i];
        all_refused("1: modes", &m, 0, 5, CHARGEPLAN_MODE_COUNT, 0);
    }
    for (i = 0; i < sizeof starts / sizeof starts[0]; i++) {
        m = model_g();
        m.start = starts[i];
        all_refused("2: start mode", &m, 0, 5, CHARGEPLAN_START_MODE, 0);
    }
    for (i = 0; i < sizeof colours / sizeof colours[0]; i++) {
        m = model_g();
        m.k = colours[i];
        all_refused("4: colours", &m, 0, 5, CHARGEPLAN_COLOUR_COUNT, 0);
    }
    m = model_g();
    m.start = m.n;
    m.k = 5;
    all_refused("N: start mode n and k 5 together", &m, 0, 5, CHARGEPLAN_START_MODE, 0);
    m.n = 0;
    all_refused("1 before 2", &m, 0, 5, CHARGEPLAN_MODE_COUNT, 0);
}

/* A set of all lists of a model, by their places, with a bit for each. */
enum { ALL_LISTS = (1 << MODEL_LISTS) - 1 };

struct model unequal(size_t arcs, unsigned set, size_t length)
{
    struct model m = model(1, 0, arcs, zeros, zeros, nothing, nothing, zeros);
    size_t *lengths[MODEL_LISTS] = {
        &m.sources_length, &m.targets_length, &m.draws_length, &m.gains_length, &m.colours_length, &m.actions_length};
    unsigned list;

    for (list = 0; list < MODEL_LISTS; list++)
        if (set >> list & 1)
            *lengths[list] = length;
    return m;
}

void each_wrong_number(const struct model *fit, refusing *refused)
{
    static const uint32_t modes[] = {0, CHARGEPLAN_MODES_MOST + 1, 256, 258, 65538, 0x80000002u, UINT32_MAX},
                          colours[] = {CHARGEPLAN_COLOURS_MOST + 1, 8, 32, 256, 257, 65537, UINT32_MAX};
    struct model m = *fit;
    size_t i;

    for (i = 0; i < sizeof modes / sizeof modes[0]; i++) {
        m.n = modes[i];
        refused("1: modes", &m, CHARGEPLAN_MODE_COUNT, 0);
    }
    m.n = fit->n;
    for (i = 0; i < sizeof colours / sizeof colours[0]; i++) {
        m.k = colours[i];
        refused("4: colours", &m, CHARGEPLAN_COLOUR_COUNT, 0);
    }
}

void each_wrong_list(refusing *refused)
{
    static const struct {
        size_t arcs, length;
    } lengths[] = {{3, 2}, {3, 4}, {3, 0}, {0, 1}, {255, 254}, {255, 256}, {256, 255}, {256, 0}, {256, 256}};
    unsigned list;
    size_t i;

    for (list = 0; list < MODEL_LISTS; list++)
        for (i = 0; i < sizeof lengths / sizeof lengths[0]; i++) {
            struct model m = unequal(lengths[i].arcs, 1u << list, lengths[i].length);

            refused("3: lists", &m, CHARGEPLAN_ARC_LISTS, 0);
        }
}

struct model with_faults(struct lists *to, unsigned faults, size_t unfit)
{
    static const struct arc arcs[3];
    struct model m = of_arcs(to, 1, 0, arcs, 3);

    if (faults >> FAULT_MODES & 1)
        m.n = 65;
    if (faults >> FAULT_START & 1)
        m.start = 70;
    if (faults >> FAULT_LISTS & 1)
        m.gains_length = 2;
    if (faults >> FAULT_COLOURS & 1)
        m.k = 5;
    if (faults >> FAULT_ARC & 1)
        to->actions[unfit] = 16;
    return m;
}

uint32_t first_fault(unsigned faults)
{
    uint32_t first = 0;

    while (first < MODEL_FAULTS && !(faults >> first & 1))
        first++;
    return first < MODEL_FAULTS ? first + 1 : 0;
}

/* One list with another length. */
static void one_unequal(const char *what, unsigned list, size_t arcs, size_t length)
{
    struct model m = unequal(arcs, 1u << list, length);

    all_refused(what, &m, 0, 5, CHARGEPLAN_ARC_LISTS, 0);
}

/* The lists of every set with another length, but not of none and not of all. */
static void some_unequal(const char *what, size_t arcs, size_t length)
{
    unsigned set;

    for (set = 1; set < ALL_LISTS; set++) {
        struct model m = unequal(arcs, set, length);

        all_refused(what, &m, 0, 5, CHARGEPLAN_ARC_LISTS, 0);
    }
}

/* 3, and that it comes between 2 and 4. */
void test_lists(void)
{
    static const char *const shorter[] = {"3: sources one short", "3: targets one short", "3: draws one short", "3: gains one short",
        "3: colours one short", "3: actions one short"};
    static const char *const longer[] = {"3: sources one long", "3: targets one long", "3: draws one long", "3: gains one long",
        "3: colours one long", "3: actions one long"};
    static const char *const missing[] = {
        "3: no sources", "3: no targets", "3: no draws", "3: no gains", "3: no colours", "3: no actions"};
    enum { MOST = CHARGEPLAN_ARCS_MOST };
    struct model m;
    unsigned list;

    for (list = 0; list < MODEL_LISTS; list++) {
        one_unequal(shorter[list], list, 3, 2);
        one_unequal(longer[list], list, 3, 4);
        one_unequal(missing[list], list, 3, 0);
        one_unequal("3: one list longer than 255", list, MOST, MOST + 1);
        one_unequal("3: one list shorter than 256", list, MOST + 1, MOST);
    }
    some_unequal("3: some lists one short", 3, 2);
    some_unequal("3: some lists, and no arc in the others", 0, 1);
    m = unequal(3, 1, 0);
    m.k = 5;
    all_refused("3 before 4", &m, 0, 5, CHARGEPLAN_ARC_LISTS, 0);
    m.start = 1;
    all_refused("2 before 3", &m, 0, 5, CHARGEPLAN_START_MODE, 0);
    m = unequal(MOST + 1, 0, 0);
    all_refused("3: 256 arcs", &m, 0, 5, CHARGEPLAN_ARC_LISTS, 0);
    m = unequal(MOST, 0, 0);
    found("255 arcs", &m, 0, 5);
}

/* Example G in lists of its own, with another arc at this place. */
static struct model with_arc(struct lists *to, size_t at, struct arc arc)
{
    static const uint8_t as_given[] = {0, 1, 2};
    struct model g = model_g(), m = reordered(&g, as_given, to);

    put(to, at, arc);
    return m;
}

/* It is refused, also where the last arc is unfit, too. */
static void unfit_arc(const char *what, size_t at, struct arc arc)
{
    struct lists lists;
    struct model m = with_arc(&lists, at, arc);

    all_refused(what, &m, 0, 5, CHARGEPLAN_UNFIT_ARC, (uint32_t)at);
    lists.sources[2] = 255;
    all_refused("5: the lowest unfit arc", &m, 0, 5, CHARGEPLAN_UNFIT_ARC, (uint32_t)at);
}

/* It is fit, and has a plan. */
static void fit_arc(const char *what, size_t at, struct arc arc)
{
    struct lists lists;
    struct model m = with_arc(&lists, at, arc);

    found(what, &m, 5, 5);
}

/* 5. */
void test_arcs(void)
{
    enum { DRAW = CHARGEPLAN_DRAW_MOST, GAIN = CHARGEPLAN_GAIN_MOST, ACTION = CHARGEPLAN_ACTION_MOST };
    static const struct {
        const char *what;
        struct arc arc;
    } unfit[] = {
        {"5: source n", {2, 0, 0, 0, 0, 0}},
        {"5: source 255", {255, 0, 0, 0, 0, 0}},
        {"5: target n", {0, 2, 0, 0, 0, 0}},
        {"5: colour bit k", {0, 0, 0, 0, 2, 0}},
        {"5: colour bit 7", {0, 0, 0, 0, 129, 0}},
        {"5: draw 10,001", {0, 0, DRAW + 1, 0, 0, 0}},
        {"5: gain 10,001", {0, 0, 0, GAIN + 1, 0, 0}},
        {"5: draw 10,001, the greatest gain", {0, 0, DRAW + 1, GAIN, 0, 0}},
        {"5: gain 10,001, the greatest draw", {0, 0, DRAW, GAIN + 1, 0, 0}},
        {"5: draw 32,768", {0, 0, 32768, 0, 0, 0}},
        {"5: gain 32,768", {0, 0, 0, 32768, 0, 0}},
        {"5: draw 65,535", {0, 0, UINT16_MAX, 0, 0, 0}},
        {"5: gain 65,535", {0, 0, 0, UINT16_MAX, 0, 0}},
        {"5: both 65,535", {0, 0, UINT16_MAX, UINT16_MAX, 0, 0}},
        {"5: action 16", {0, 0, 0, 0, 0, ACTION + 1}},
        {"5: action 31", {0, 0, 0, 0, 0, 31}},
        {"5: action 128", {0, 0, 0, 0, 0, 128}},
        {"5: action 255", {0, 0, 0, 0, 0, 255}},
    };
    static const struct arc gain_most = {0, 0, 0, GAIN, 0, 0}, draw_most = {0, 0, DRAW, 0, 0, 0}, both_most = {0, 0, DRAW, GAIN, 0, 0},
                            coloured = {0, 0, 0, 1, 1, 0}, last_action = {0, 0, 0, 1, 0, ACTION};
    size_t at, i;

    for (at = 0; at < 3; at++)
        for (i = 0; i < sizeof unfit / sizeof unfit[0]; i++)
            unfit_arc(unfit[i].what, at, unfit[i].arc);
    fit_arc("gain 10,000", 0, gain_most);
    fit_arc("draw 10,000", 0, draw_most);
    fit_arc("both 10,000", 0, both_most);
    fit_arc("colour 0 on another arc", 0, coloured);
    fit_arc("action 15", 0, last_action);
}

/* 6. */
void test_levels(void)
{
    static const uint32_t bounds[] = {CHARGEPLAN_BOUND_MOST + 1, 65536, 65541, UINT32_MAX}, credits[] = {6, 65536, 65541, UINT32_MAX};
    struct model m = model_g(), a = model_a();
    size_t i;

    for (i = 0; i < sizeof bounds / sizeof bounds[0]; i++)
        all_refused("6: bound", &m, 0, bounds[i], CHARGEPLAN_LEVELS, 0);
    for (i = 0; i < sizeof credits / sizeof credits[0]; i++)
        all_refused("6: credit", &m, credits[i], 5, CHARGEPLAN_LEVELS, 0);
    m.colours = ones;
    m.k = 0;
    all_refused("5 before 6", &m, 6, 5, CHARGEPLAN_UNFIT_ARC, 0);
    all_refused("N: n 1, b 8,192", &a, 0, 8192, CHARGEPLAN_LEVELS, 0);
    found("N: n 1, b 8,191", &a, CHARGEPLAN_BOUND_MOST, CHARGEPLAN_BOUND_MOST);
    found("credit 0, b 8,191", &a, 0, CHARGEPLAN_BOUND_MOST);
}

/* 7 to 9, one word or byte too few. */
void test_buffers(void)
{
    struct model m = model_g();
    size_t words = chargeplan_work_words(m.n, m.k, 5), bytes = chargeplan_plan_bytes(m.n, m.k, 5);

    check(words == 4 * 2 * 2 * 6 && bytes == 3 * 2 * 6, "sizes of the buffers");
    check_answer("8: one word short", search("8", &m, 0, 5, words - 1, bytes, 7), CHARGEPLAN_WORKING_SPACE, 0);
    check_answer("8: no working space", search("8", &m, 0, 5, 0, bytes, 7), CHARGEPLAN_WORKING_SPACE, 0);
    check_answer("9: one byte short", search("9", &m, 0, 5, words, bytes - 1, 7), CHARGEPLAN_PLAN_BUFFER, 0);
    check_answer("9: no plan buffer", search("9", &m, 0, 5, words, 0, 7), CHARGEPLAN_PLAN_BUFFER, 0);
    check_answer("8 before 9", search("8", &m, 0, 5, words - 1, bytes - 1, 7), CHARGEPLAN_WORKING_SPACE, 0);
    m = model(CHARGEPLAN_MODES_MOST, CHARGEPLAN_COLOURS_MOST, CHARGEPLAN_ARCS_MOST, zeros, zeros, nothing, nothing, zeros);
    check(m.n * (127 + 1) == CHARGEPLAN_PRODUCT_MOST, "the product at its ceiling");
    refused("N: n 64, b 127, with the largest buffers", &m, 0, 127, CHARGEPLAN_NO_PLAN, 0);
    words = chargeplan_work_words(64, 4, 127);
    bytes = chargeplan_plan_bytes(64, 4, 127);
    check(words == CHARGEPLAN_WORK_WORDS_MOST && bytes == CHARGEPLAN_PLAN_BYTES_MOST, "the largest buffers");
    check_answer("8: largest, one word short", search("8", &m, 0, 127, words - 1, bytes, 7), CHARGEPLAN_WORKING_SPACE, 0);
    check_answer("9: largest, one byte short", search("9", &m, 0, 127, words, bytes - 1, 7), CHARGEPLAN_PLAN_BUFFER, 0);
    check_answer("N: n 64, b 128", search("7", &m, 0, 128, words, bytes, 7), CHARGEPLAN_PRODUCT, 0);
    check_answer("7 before 8", search("7", &m, 0, 128, 0, 0, 0), CHARGEPLAN_PRODUCT, 0);
    check(chargeplan_work_words(64, 4, 128) == 0 && chargeplan_plan_bytes(0, 0, 0) == 0
            && chargeplan_work_words(UINT32_MAX, UINT32_MAX, UINT32_MAX) == 0, "sizes for numbers that are refused");
}
