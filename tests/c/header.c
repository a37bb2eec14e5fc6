/*
 * What the header alone has: version, numbers, layout of the structs, parts of an answer, switches, and the functions over a struct
 * chargeplan_model. Draw and gain of a weight are in weights.c.
 */
#include "decides.h"
#include "leasts.h"
#include "reaches.h"
#include "texts.h"

#include <stdlib.h>
#include <string.h>

/* The numbers of document 01's table, in its order, and those of Asks 1, 3, 5 and 6. */
static void test_constants(void)
{
    static const unsigned numbers[] = {CHARGEPLAN_YES, CHARGEPLAN_MODE_COUNT, CHARGEPLAN_START_MODE, CHARGEPLAN_ARC_LISTS,
        CHARGEPLAN_COLOUR_COUNT, CHARGEPLAN_UNFIT_ARC, CHARGEPLAN_LEVELS, CHARGEPLAN_PRODUCT, CHARGEPLAN_WORKING_SPACE,
        CHARGEPLAN_PLAN_BUFFER, CHARGEPLAN_NO_PLAN, CHARGEPLAN_PLAN_LENGTH, CHARGEPLAN_ARC_NUMBER, CHARGEPLAN_OTHER_MODE,
        CHARGEPLAN_OPEN_CYCLE, CHARGEPLAN_IMPOSSIBLE_STEP, CHARGEPLAN_FALLING_CYCLE, CHARGEPLAN_MISSING_COLOUR,
        CHARGEPLAN_NO_SUCH_COLOUR, CHARGEPLAN_HOA_LINE, CHARGEPLAN_DIMACS_LINE, CHARGEPLAN_TEXTS_DISAGREE, CHARGEPLAN_MIXED_GAUGE,
        CHARGEPLAN_JOIN_SIZE, CHARGEPLAN_BARRED_COLOUR};
    unsigned i;

    check(sizeof numbers / sizeof numbers[0] == 25, "the numbers 0 to 24");
    for (i = 0; i < sizeof numbers / sizeof numbers[0]; i++)
        check(numbers[i] == i, "a number of the header");
    check(CHARGEPLAN_VERSION == 5, "the version with switches");
    check(CHARGEPLAN_ACTION_MOST == 15, "the greatest action");
    check(CHARGEPLAN_DECIDE_BOUND_MOST == 1000000 && CHARGEPLAN_DECIDE_WORDS_MOST == 5120, "the greatest decision");
    check(CHARGEPLAN_UNREACHED == 65535 && CHARGEPLAN_UNREACHED > CHARGEPLAN_BOUND_MOST, "the charge of no mode");
}

/* Where the library reads and writes. */
static void test_layout(void)
{
    check(sizeof(struct chargeplan_gauge) == 24 && offsetof(struct chargeplan_gauge, mode) == 0
            && offsetof(struct chargeplan_gauge, charge) == 2 && offsetof(struct chargeplan_gauge, spill) == 8, "a gauge");
    check(offsetof(struct chargeplan_gauge, modes) == 16 && offsetof(struct chargeplan_gauge, arcs) == 17
            && offsetof(struct chargeplan_gauge, bound) == 18, "what a gauge was started with");
    check(sizeof(struct chargeplan_started) == 32 && offsetof(struct chargeplan_started, answer) == 0
            && offsetof(struct chargeplan_started, gauge) == 8, "what a start hands back");
    check(sizeof(struct chargeplan_reading) == 32 && offsetof(struct chargeplan_reading, number) == 0
            && offsetof(struct chargeplan_reading, detail) == 8 && offsetof(struct chargeplan_reading, n) == 16
            && offsetof(struct chargeplan_reading, start) == 20 && offsetof(struct chargeplan_reading, k) == 24
            && offsetof(struct chargeplan_reading, m) == 28, "what reading and the join hand back");
    check(sizeof(struct chargeplan_wearer) == 16 && offsetof(struct chargeplan_wearer, start) == 0
            && offsetof(struct chargeplan_wearer, c) == 4 && offsetof(struct chargeplan_wearer, b) == 8
            && offsetof(struct chargeplan_wearer, verdict) == 12, "a wearer");
    check(sizeof(struct chargeplan_warded) == 16 && offsetof(struct chargeplan_warded, number) == 0
            && offsetof(struct chargeplan_warded, detail) == 8, "what a ward hands back");
    check(sizeof(struct chargeplan_reach) == 160 && offsetof(struct chargeplan_reach, on) == 0
            && offsetof(struct chargeplan_reach, charges) == 32, "a reach");
    check(sizeof(struct chargeplan_reached) == 168 && offsetof(struct chargeplan_reached, answer) == 0
            && offsetof(struct chargeplan_reached, reach) == 8, "what a fresh reach and a switching hand back");
}

/* The switches with which every arc is on, and each bit by its arc; a number above 255 has no bit. */
static void test_is_on(void)
{
    static const uint64_t all[] = {CHARGEPLAN_ALL_ON}, one_more[] = {CHARGEPLAN_ALL_ON, UINT64_MAX};
    static const uint32_t beyond[] = {256, 257, 319, 320, 511, 512, 65536, 0x80000000u, UINT32_MAX};
    uint32_t a, other;
    size_t i;

    check(sizeof all == CHARGEPLAN_ON_WORDS * sizeof all[0] && CHARGEPLAN_ON_WORDS == 4, "four words");
    for (a = 0; a < 256; a++) {
        struct switches lone = with_on(all_off, a);

        check(chargeplan_is_on(all, a) == 1, "every arc is on");
        for (other = 0; other < 256; other++)
            check(chargeplan_is_on(lone.on, other) == (other == a), "one arc is on");
    }
    for (i = 0; i < sizeof beyond / sizeof beyond[0]; i++)
        check(chargeplan_is_on(one_more, beyond[i]) == 0, "the number of no arc");
}

/* The functions that take an answer apart: each reads its own bits. */
static void test_parts(void)
{
    uint64_t number = 0xff, detail = (uint64_t)0xffffff << 8, low = (uint64_t)0xffff << 32, high = (uint64_t)0xffff << 48;
    uint64_t met_bit = (uint64_t)1 << 48, value = (uint64_t)UINT32_MAX << 32;

    check(chargeplan_number(number) == 0xff && chargeplan_number(~number) == 0, "the number's bits");
    check(chargeplan_detail(detail) == 0xffffff && chargeplan_detail(~detail) == 0, "the detail's bits");
    check(chargeplan_prefix(low) == 0xffff && chargeplan_prefix(~low) == 0, "p's bits");
    check(chargeplan_cycle(high) == 0xffff && chargeplan_cycle(~high) == 0, "q's bits");
    check(chargeplan_steps(low) == 0xffff && chargeplan_steps(~low) == 0, "the steps' bits");
    check(chargeplan_met(met_bit) == 1 && chargeplan_met(~met_bit) == 0, "the bit of a colour met");
    check(chargeplan_value(value) == UINT32_MAX && chargeplan_value(~value) == 0, "the value's bits");
}

/* The largest bound and the words of a least bound, for every n and k; 0 where they are refused in any case. */
static void test_least_sizes(void)
{
    static const uint32_t above[] = {8193, 16384, 65536, 0x80000000u, UINT32_MAX};
    uint32_t n, k;
    size_t i;

    for (n = 1; n <= CHARGEPLAN_PRODUCT_MOST; n++) {
        uint32_t b = chargeplan_largest_bound(n);

        check(n * (b + 1) <= CHARGEPLAN_PRODUCT_MOST && n * (b + 2) > CHARGEPLAN_PRODUCT_MOST, "the largest bound");
        for (k = 0; k <= CHARGEPLAN_COLOURS_MOST; k++)
            check(chargeplan_least_bound_words(n, k) == (n <= CHARGEPLAN_MODES_MOST ? 4 * (k + 1) * n * (b + 1) : 0), "its words");
        check(chargeplan_least_bound_words(n, k) == 0 && chargeplan_least_bound_words(n, UINT32_MAX) == 0, "no words, by k");
    }
    check(chargeplan_largest_bound(0) == 0 && chargeplan_least_bound_words(0, 0) == 0, "no modes");
    for (i = 0; i < sizeof above / sizeof above[0]; i++)
        check(chargeplan_largest_bound(above[i]) == 0 && chargeplan_least_bound_words(above[i], 0) == 0, "too many modes");
}

/* A model with lists of one length, as the header has it. */
static struct chargeplan_model in_one(const struct model *m, struct lent l)
{
    struct chargeplan_model one = {
        m->n, m->start, m->k, l.sources, l.targets, l.draws, l.gains, l.colours, l.actions, m->sources_length};
    return one;
}

/* Judging and walking a plan of a model. */
static void same_plan(const char *what, const struct model *m, uint32_t c, uint32_t b, uint32_t p, uint32_t q, const uint8_t *plan)
{
    struct lent l = lend(m);
    struct chargeplan_model one = in_one(m, l);
    size_t length = (size_t)p + q;
    uint8_t *bytes = copied(plan, length);
    uint32_t j;

    check(chargeplan_model_judge(&one, c, b, m->barred, p, q, bytes) == judge(what, m, c, b, p, q, plan, length), what);
    for (j = 0; j <= 2; j++) {
        check(chargeplan_model_walk(&one, c, b, m->barred, p, q, bytes, j, 7) == walk(what, m, c, b, p, q, plan, length, j, 7), what);
        check(chargeplan_model_walk(&one, c, b, m->barred, p, q, bytes, j, 3) == walk(what, m, c, b, p, q, plan, length, j, 3), what);
    }
    free(bytes);
    take_back(m, l, what);
}

/* Search of a model with buffers of these sizes: the answer, and the plan buffer, which held zeros. */
static void same_search(const char *what, const struct model *m, uint32_t c, uint32_t b, size_t words, size_t bytes)
{
    struct lent l = lend(m);
    struct chargeplan_model one = in_one(m, l);
    uint16_t *work = copied(NULL, words * sizeof *work);
    uint8_t *plan = copied(NULL, bytes), *expected = copied(NULL, bytes);
    const uint64_t *on = m->switches.on;
    uint64_t answer;

    memset(plan, 0, bytes);
    memset(expected, 0, bytes);
    answer = chargeplan_search(m->n, m->start, m->k, l.sources, m->sources_length, l.targets, m->targets_length, l.draws,
        m->draws_length, l.gains, m->gains_length, l.colours, m->colours_length, l.actions, m->actions_length, c, b, m->barred, on[0],
        on[1], on[2], on[3], work, words, expected, bytes);
    check(chargeplan_model_search(&one, c, b, m->barred, on, work, words, plan, bytes) == answer, what);
    check(memcmp(plan, expected, bytes) == 0, what);
    free(work);
    free(plan);
    free(expected);
    take_back(m, l, what);
}

/* Search with buffers as long as they must be, and with either one too short. */
static void same_searches(const char *what, const struct model *m, uint32_t c, uint32_t b)
{
    size_t words = chargeplan_work_words(m->n, m->k, b), bytes = chargeplan_plan_bytes(m->n, m->k, b);

    same_search(what, m, c, b, words, bytes);
    same_search(what, m, c, b, words - 1, bytes);
    same_search(what, m, c, b, words, bytes - 1);
}

/* The decision of a model with a space of so many words. */
static void same_decision(const char *what, const struct model *m, uint32_t c, uint32_t b, size_t words)
{
    struct lent l = lend(m);
    struct chargeplan_model one = in_one(m, l);
    uint32_t *work = copied(NULL, words * sizeof *work);

    memset(work, 0x5a, words * sizeof *work);
    check(chargeplan_model_decide(&one, c, b, m->barred, m->switches.on, work, words) == decide(what, m, c, b, words, 0x66u), what);
    free(work);
    take_back(m, l, what);
}

/* The decision with a space as long as it must be, and with one too short, with these levels and with greater ones. */
static void same_decisions(const char *what, const struct model *m, uint32_t c, uint32_t b)
{
    size_t words = chargeplan_decide_words(m->n, m->k);

    same_decision(what, m, c, b, words);
    same_decision(what, m, c, b, words - 1);
    same_decision(what, m, c, CHARGEPLAN_DECIDE_BOUND_MOST, words);
    same_decision(what, m, c, CHARGEPLAN_DECIDE_BOUND_MOST + 1, words);
}

/* The least credit or the least bound of a model with a space of so many words. */
static void same_least(const char *what, enum least of, const struct model *m, uint32_t given, size_t words)
{
    struct lent l = lend(m);
    struct chargeplan_model one = in_one(m, l);
    uint16_t *work = copied(NULL, words * sizeof *work);
    uint64_t answer;

    memset(work, 0x5a, words * sizeof *work);
    answer = of == LEAST_CREDIT ? chargeplan_model_least_credit(&one, given, m->barred, m->switches.on, work, words)
                                : chargeplan_model_least_bound(&one, given, m->barred, m->switches.on, work, words);
    check(answer == least(what, of, m, given, words, 2), what);
    free(work);
    take_back(m, l, what);
}

/* Both with a space as long as it must be, and with one too short, and with levels that are refused. */
static void same_leasts(const char *what, const struct model *m, uint32_t c, uint32_t b)
{
    size_t words = chargeplan_work_words(m->n, m->k, b), of_bound = chargeplan_least_bound_words(m->n, m->k);

    same_least(what, LEAST_CREDIT, m, b, words);
    same_least(what, LEAST_CREDIT, m, b, words - 1);
    same_least(what, LEAST_CREDIT, m, CHARGEPLAN_BOUND_MOST + 1, words);
    same_least(what, LEAST_BOUND, m, c, of_bound);
    same_least(what, LEAST_BOUND, m, c, of_bound - 1);
    same_least(what, LEAST_BOUND, m, CHARGEPLAN_BOUND_MOST + 1, words);
}

/* Steps of a gauge on each arc of a model, and on one more. */
static void same_steps(const char *what, struct chargeplan_gauge *lent, struct gauge *g, const struct model *m, struct lent l,
    uint32_t b)
{
    struct chargeplan_model one = in_one(m, l);
    uint32_t arc;

    for (arc = 0; arc <= m->sources_length; arc++) {
        uint64_t answer = chargeplan_model_gauge_step(lent, &one, b, arc);

        check(step_gauge(what, g, m, b, arc) == answer, what);
        check_gauge(what, *g, read_gauge(lent));
    }
}

/* A gauge of a model started, and stepped with its model and bound, with another bound, another n, and one arc fewer. */
static void same_gauge(const char *what, const struct model *m, uint32_t c, uint32_t b)
{
    struct lent l = lend(m);
    struct chargeplan_model one = in_one(m, l);
    struct chargeplan_started s = chargeplan_model_gauge_start(&one, c, b);
    struct model more_modes = *m, fewer_arcs = without_last(m);
    struct gauge g;

    check(start_gauge(what, &g, m, c, b) == s.answer, what);
    check_gauge(what, g, read_gauge(&s.gauge));
    more_modes.n++;
    same_steps(what, &s.gauge, &g, m, l, b);
    same_steps(what, &s.gauge, &g, m, l, b + 1);
    same_steps(what, &s.gauge, &g, &more_modes, l, b);
    same_steps(what, &s.gauge, &g, &fewer_arcs, l, b);
    take_back(m, l, what);
}

/* A switching of a reach, which is then the one handed back. */
static void same_switching(const char *what, struct chargeplan_reach *reach, const struct chargeplan_model *one, const struct model *m,
    uint32_t c, uint32_t b, uint32_t arc, uint8_t on)
{
    struct chargeplan_reached r = chargeplan_model_reach_switch(*reach, one, c, b, arc, on),
                              entry = switch_reach(what, *reach, m, c, b, arc, on);

    check(r.answer == entry.answer, what);
    check_same_reach(what, r.reach, entry.reach);
    *reach = entry.reach;
}

/* A fresh reach of a model, and every switching of each of its arcs, and of some more. */
static void same_reaches(const char *what, const struct model *m, uint32_t c, uint32_t b)
{
    struct lent l = lend(m);
    struct chargeplan_model one = in_one(m, l);
    struct chargeplan_reached r = chargeplan_model_reach_start(&one, c, b, m->switches.on), entry = start_reach(what, m, c, b);
    uint32_t arc;
    uint8_t on;

    check(r.answer == entry.answer, what);
    check_same_reach(what, r.reach, entry.reach);
    for (on = 0; on <= 2; on++) {
        for (arc = 0; arc <= m->sources_length; arc++)
            same_switching(what, &entry.reach, &one, m, c, b, arc, on);
        same_switching(what, &entry.reach, &one, m, c, b, 256, on);
        same_switching(what, &entry.reach, &one, m, c, b, UINT32_MAX, on);
    }
    take_back(m, l, what);
}

/* Every function over a struct chargeplan_model does what its entry does, with nothing barred or off, and with these colours and arcs. */
static void same_calls(const char *what, const struct model *m, uint32_t c, uint32_t b, uint32_t p, uint32_t q, const uint8_t *plan)
{
    static const uint8_t barred[] = {0, 1, 2, 3, 254, 255};
    static const struct switches off[] = {{{0, 0, 0, 0}}, {{6, 0, 0, 1}}, {{5, 1, 2, 3}}, {{3, 7, 11, 13}}};
    struct model r = *m;
    size_t i;

    for (i = 0; i < sizeof barred; i++) {
        r.barred = barred[i];
        same_plan(what, &r, c, b, p, q, plan);
        same_searches(what, &r, c, b);
        same_decisions(what, &r, c, b);
        same_leasts(what, &r, c, b);
    }
    r = *m;
    same_reaches(what, &r, c, b);
    for (i = 0; i < sizeof off / sizeof off[0]; i++) {
        r.switches = off[i];
        same_searches(what, &r, c, b);
        same_decisions(what, &r, c, b);
        same_leasts(what, &r, c, b);
        same_reaches(what, &r, c, b);
    }
    same_gauge(what, m, c, b);
}

static void test_model_functions(void)
{
    static const uint8_t plan_i[] = {0, 0, 0, 0, 0, 1, 2}, plan_j[] = {1, 0}, actions[] = {15, 0, 7}, unfit_actions[] = {15, 16, 7};
    static const uint16_t five[] = {5}, eight[] = {8};
    struct model g = model_g(), j = model_j(), e = model_e(), dip = model(1, 0, 1, zeros, zeros, five, eight, zeros),
                 many = model(1, 0, CHARGEPLAN_ARCS_MOST + 1, zeros, zeros, nothing, nothing, zeros);

    same_calls("example I", &g, 0, 5, 6, 1, plan_i);
    same_calls("example I, another cut", &g, 0, 5, 5, 2, plan_i);
    same_calls("example I, another bound", &g, 0, 4, 6, 1, plan_i);
    same_calls("example E", &e, 10, 10, 0, 2, plan_i + 4);
    same_calls("example J", &j, 0, 2, 0, 2, plan_j);
    same_calls("an arc with draw and gain", &dip, 5, 7, 0, 1, zeros);
    same_calls("an arc with draw and gain, too little charge", &dip, 3, 7, 0, 1, zeros);
    same_calls("3: 256 arcs", &many, 0, 2, 0, 2, plan_j);
    same_calls("6: credit", &j, 3, 2, 0, 2, plan_j);
    g.start = 1;
    same_calls("another start mode", &g, 4, 5, 0, 1, plan_i + 6);
    g.start = 2;
    same_calls("2: start mode", &g, 4, 5, 0, 1, plan_i + 6);
    g.start = 0;
    g.k = 0;
    same_calls("5: colour bit k", &g, 0, 5, 6, 1, plan_i);
    g.k = 1;
    g.actions = actions;
    same_calls("any actions", &g, 0, 5, 6, 1, plan_i);
    g.actions = unfit_actions;
    same_calls("5: an action", &g, 0, 5, 6, 1, plan_i);
}

/* One arc of each word alone is on, of 255 that change nothing: it is the plan. */
static void test_model_switches(void)
{
    struct model m = model(1, 0, CHARGEPLAN_ARCS_MOST, zeros, zeros, nothing, nothing, zeros);
    struct lent l = lend(&m);
    struct chargeplan_model one = in_one(&m, l);
    uint16_t work[4];
    uint8_t plan[2], arc;

    for (arc = 3; arc < 253; arc = (uint8_t)(arc + 50)) {
        struct switches lone = with_on(all_off, arc);

        check(chargeplan_number(chargeplan_model_search(&one, 0, 0, 0, lone.on, work, 4, plan, 2)) == CHARGEPLAN_YES && plan[0] == arc,
            "one arc is on");
        m.switches = lone;
        same_searches("one arc is on", &m, 0, 0);
    }
    take_back(&m, l, "one arc is on");
}

/* One arc of each word alone is on, of 255 of which the others draw: it alone is a cycle, so that a number shows which arc is on. */
static void test_model_lone(void)
{
    struct lists lists;
    struct model m;
    size_t a, arc;

    memset(&lists, 0, sizeof lists);
    for (a = 0; a < CHARGEPLAN_ARCS_MOST; a++)
        lists.draws[a] = 1;
    m = listed(1, 0, &lists, CHARGEPLAN_ARCS_MOST);
    for (arc = 3; arc < 253; arc += 50) {
        lists.draws[arc] = 0;
        m.switches = with_on(all_off, arc);
        same_decisions("one arc is on", &m, 0, 0);
        same_leasts("one arc is on", &m, 0, 0);
        lists.draws[arc] = 1;
    }
}

/* Whether two lists to be filled, which hold so many arcs, have the same content. */
static int same_lists(const struct lists *x, const struct lists *y, size_t arcs)
{
    return same(x->sources, y->sources, arcs) && same(x->targets, y->targets, arcs) && same(x->draws, y->draws, arcs * sizeof x->draws[0])
        && same(x->gains, y->gains, arcs * sizeof x->gains[0]) && same(x->colours, y->colours, arcs)
        && same(x->actions, y->actions, arcs);
}

/* Reading into lists with room for so many arcs: answer and lists are those of the entry, and the model is made of them. */
static void same_reading(const char *what, const char *hoa, const char *dimacs, size_t room)
{
    struct lists of_entry, of_model;
    struct chargeplan_lists lent = {
        of_model.sources, of_model.targets, of_model.draws, of_model.gains, of_model.colours, of_model.actions, room};
    struct text h = as_text(hoa), d = as_text(dimacs);
    struct chargeplan_reading entry, reading;
    struct chargeplan_model m;

    memset(&of_entry, 0x5a, sizeof of_entry);
    memset(&of_model, 0x5a, sizeof of_model);
    entry = chargeplan_read(h.bytes, h.length, d.bytes, d.length, of_entry.sources, room, of_entry.targets, room, of_entry.draws, room,
        of_entry.gains, room, of_entry.colours, room, of_entry.actions, room);
    reading = chargeplan_model_read(&m, &lent, h.bytes, h.length, d.bytes, d.length);
    check(reading.number == entry.number && reading.detail == entry.detail && reading.n == entry.n && reading.start == entry.start
            && reading.k == entry.k && reading.m == entry.m, what);
    check(same_lists(&of_entry, &of_model, CHARGEPLAN_ARCS_MOST), what);
    check(m.n == entry.n && m.start == entry.start && m.k == entry.k && m.arcs == entry.m, what);
    check(m.sources == of_model.sources && m.targets == of_model.targets && m.draws == of_model.draws && m.gains == of_model.gains
            && m.colours == of_model.colours && m.actions == of_model.actions, what);
    check(chargeplan_number(chargeplan_model_gauge_start(&m, 0, 0).answer) == (entry.number == 0 ? CHARGEPLAN_YES : CHARGEPLAN_MODE_COUNT),
        what);
}

static void test_model_read(void)
{
    same_reading("a pair", knee_hoa, knee_dimacs, CHARGEPLAN_ARCS_MOST);
    same_reading("a pair, as many places as arcs", knee_hoa, knee_dimacs, 4);
    same_reading("3: a pair, one place too few", knee_hoa, knee_dimacs, 3);
    same_reading("19: a pair", knee_dimacs, knee_dimacs, CHARGEPLAN_ARCS_MOST);
    same_reading("20: a pair", knee_hoa, knee_hoa, CHARGEPLAN_ARCS_MOST);
    same_reading("21: a pair", knee_hoa, "p sp 4 0\n", CHARGEPLAN_ARCS_MOST);
}

void test_header(void)
{
    test_constants();
    test_layout();
    test_parts();
    test_least_sizes();
    test_is_on();
    test_model_functions();
    test_model_switches();
    test_model_lone();
    test_model_read();
}
