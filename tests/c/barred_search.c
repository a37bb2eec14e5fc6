/*
 * Barred colours (document 02, Ask 6) in search: none stands in the cycle, the prefix is free, and "no plan" means that none keeps both
 * rules.
 */
#include "calls.h"

#include <string.h>

/* Search with these barred colours finds a plan, or says that there is none. */
static void searched_barred(const char *what, struct model m, uint32_t barred, uint32_t c, uint32_t b, int has_plan)
{
    m.barred = (uint8_t)barred;
    if (has_plan)
        found(what, &m, c, b);
    else
        refused(what, &m, c, b, CHARGEPLAN_NO_PLAN, 0);
}

/* As example G: a loop charges, with colour 1, and with 5 an arc leads to a mode with a loop that meets colour 0. */
static struct model model_charged_before(struct lists *lists)
{
    static const struct arc arcs[] = {{0, 0, 0, 1, 2, 0}, {0, 1, 5, 0, 0, 0}, {1, 1, 0, 0, 1, 0}};

    return of_arcs(lists, 2, 2, arcs, 3);
}

static void test_charged_before(void)
{
    struct lists lists;
    struct model m = model_charged_before(&lists);

    searched_barred("no cycle meets both colours", m, 0, 0, 5, 0);
    searched_barred("charged by barred arcs in the prefix", m, 2, 0, 5, 1);
    searched_barred("too small a bound for the prefix", m, 2, 0, 4, 0);
    searched_barred("the cycle is the charging loop", m, 1, 0, 4, 1);
    searched_barred("each loop has a barred colour", m, 3, 5, 5, 0);
    lists.colours[1] = 2;
    searched_barred("the way to the cycle has a barred colour, too", m, 2, 0, 5, 1);
}

/* Example J: of its two loops one draws, with colour 0, and one gains, with colour 1. */
static void test_example_j(void)
{
    struct model m = model_j();

    searched_barred("J", m, 0, 0, 2, 1);
    searched_barred("J: the loop that draws is barred", m, 1, 0, 2, 1);
    searched_barred("J: the loop that gains is barred", m, 2, 0, 2, 0);
    searched_barred("J: the loop that gains is barred, fully charged", m, 2, 2, 2, 0);
    searched_barred("J: both are barred", m, 3, 0, 2, 0);
}

/* A required colour on an arc with a barred one does not count; an arc without the barred one does. */
static void test_shared_arc(void)
{
    static const struct arc arcs[] = {{0, 0, 0, 0, 3, 0}, {0, 0, 0, 0, 0, 0}, {0, 0, 0, 0, 1, 0}};
    struct lists lists;
    struct model three = of_arcs(&lists, 1, 2, arcs, 3), two = without_last(&three);

    searched_barred("two colours on one arc", two, 0, 0, 0, 1);
    searched_barred("two colours on one arc, one barred", two, 2, 0, 0, 0);
    searched_barred("two colours on one arc, the other barred", two, 1, 0, 0, 0);
    searched_barred("two colours on one arc, both barred", two, 3, 0, 0, 1);
    searched_barred("the required colour on another arc", three, 2, 0, 0, 1);
    searched_barred("the barred colour on another arc", three, 1, 0, 0, 0);
    searched_barred("barred colours on both", three, 3, 0, 0, 1);
}

/* Modes 0 and 1 have loops; the loop of mode 0, and the arc back to it, meet colour 1. */
static void test_later_mode(void)
{
    static const struct arc arcs[] = {{0, 0, 0, 0, 3, 0}, {0, 1, 0, 0, 2, 0}, {1, 0, 0, 0, 2, 0}, {1, 1, 0, 0, 1, 0}};
    struct lists lists;
    struct model m = of_arcs(&lists, 2, 2, arcs, 4);

    searched_barred("the loop of the later mode", m, 2, 0, 0, 1);
    searched_barred("a cycle by both modes", m, 1, 0, 0, 1);
    m.start = 1;
    searched_barred("the loop of the start mode", m, 2, 0, 0, 1);
    searched_barred("a cycle by both modes, from the other", m, 1, 0, 0, 1);
    lists.colours[3] = 2;
    searched_barred("no cycle without the barred colour", m, 2, 0, 0, 0);
}

/* A barred loop charges mode 0 up to the bound, and no cycle keeps that: the one by mode 1 gains first, and loses it at the bound. */
static void test_peak_not_kept(void)
{
    static const struct arc arcs[] = {{0, 0, 0, 1, 2, 0}, {0, 1, 0, 3, 0, 0}, {1, 0, 3, 0, 1, 0}};
    struct lists lists;
    struct model m = of_arcs(&lists, 2, 2, arcs, 3);

    searched_barred("the peak of a mode is not kept", m, 2, 0, 10, 1);
    searched_barred("the same with the least bound", m, 2, 0, 3, 1);
    searched_barred("the same with too small a bound", m, 2, 0, 2, 0);
}

/* The prefix found charges five times or more on the arc that is barred in the cycle, and the cycle is the other loop. */
static void test_found_plan(void)
{
    enum { B = 5, BYTES = 4 * 2 * (B + 1) };
    uint8_t plan[BYTES];
    struct lists lists;
    struct model m = model_charged_before(&lists);
    uint32_t p, q, i;
    uint64_t answer;

    m.barred = 2;
    answer = search_exactly("the plan found", &m, 0, B, plan);
    p = chargeplan_prefix(answer);
    q = chargeplan_cycle(answer);
    check(p > B && p + q <= BYTES, "the plan found");
    for (i = 0; i < p + q && i < BYTES; i++)
        check(i < B ? plan[i] == 0 : i < p || plan[i] == 2, "an arc of the plan found");
}

/* No colours, and all of them barred: any cycle, or any without colours. */
static void test_nothing_required(void)
{
    struct lists lists;
    struct model a = model_a(), b = model_b(), four = every_colouring(&lists, 4), none = without_arcs(1, 4);
    uint32_t barred;

    for (barred = 0; barred <= UINT8_MAX; barred++) {
        searched_barred("k 0, every byte", a, barred, 0, 0, 1);
        searched_barred("k 0, every byte, no plan", b, barred, 0, 0, 0);
        searched_barred("no arcs, every byte", none, barred, 0, 0, 0);
        searched_barred("an arc for every set of colours, every byte", four, barred, 0, 0, 1);
    }
    lists.colours[0] = 8;
    searched_barred("all are barred, and every arc has a colour", four, 15, 0, 0, 0);
    searched_barred("all but one are barred, and it is on every arc without another", four, 7, 0, 0, 1);
}

void test_barred_search(void)
{
    test_charged_before();
    test_example_j();
    test_shared_arc();
    test_later_mode();
    test_peak_not_kept();
    test_found_plan();
    test_nothing_required();
}

enum { RING = 8, COLOURS = CHARGEPLAN_COLOURS_MOST };

/* A ring that gains 1 on each arc but the last; every second arc meets one of the colours, and beside it stands one that meets none. */
static struct model ring(struct lists *to)
{
    uint32_t i;

    for (i = 0; i < RING; i++) {
        struct arc arc = {i, (i + 1) % RING, i + 1 < RING ? 0 : RING - 1, i + 1 < RING, i % 2 ? 1u << i / 2 : 0, 0};

        put(to, i, arc);
        arc.colours = 0;
        if (i % 2)
            put(to, RING + i / 2, arc);
    }
    return listed(RING, COLOURS, to, RING + COLOURS);
}

/* Every byte: a barred colour needs the arc beside its own. */
void test_barred_sets(void)
{
    struct lists lists;
    struct model m = ring(&lists);
    uint32_t barred, j;

    for (barred = 0; barred <= UINT8_MAX; barred++) {
        searched_barred("a ring", m, barred, 0, RING - 1, 1);
        searched_barred("a ring with too small a bound", m, barred, 0, RING - 2, 0);
        for (j = 0; j < COLOURS; j++) {
            lists.draws[RING + j] = RING; /* more than the bound */
            searched_barred("a ring with one way for a colour", m, barred, 0, RING - 1, (barred >> j & 1) == 0);
            m = ring(&lists);
        }
    }
}

/* Working space and plan buffer go by k, whatever is barred. */
void test_barred_buffers(void)
{
    static const uint8_t bytes_tried[] = {0, 1, 5, 8, 15, 240, 255};
    struct lists lists;
    uint32_t k;
    size_t i;

    for (k = 0; k <= COLOURS; k++)
        for (i = 0; i < sizeof bytes_tried; i++) {
            struct model m = every_colouring(&lists, k);
            size_t words = chargeplan_work_words(1, k, 5), bytes = chargeplan_plan_bytes(1, k, 5);

            m.barred = bytes_tried[i];
            check(words == 4 * (k + 1) * 6 && bytes == (k + 2) * 6, "sizes by k");
            found("buffers by k", &m, 0, 5);
            check_answer("8 by k", search("8 by k", &m, 0, 5, words - 1, bytes, 7), CHARGEPLAN_WORKING_SPACE, 0);
            check_answer("9 by k", search("9 by k", &m, 0, 5, words, bytes - 1, 7), CHARGEPLAN_PLAN_BUFFER, 0);
        }
}

/* Buffers that are nearly filled: one mode, a loop that gains 1, and for each colour an arc that takes all the charge there is. */
void test_barred_long_plans(void)
{
    enum { B = 300, ARCS = 1 + COLOURS };
    static const uint16_t draws[ARCS] = {0, B, B, B, B}, gains[ARCS] = {1, 0, 0, 0, 0};
    static const uint8_t colours[ARCS] = {0, 1, 2, 4, 8};
    struct model m = model(1, COLOURS, ARCS, zeros, zeros, draws, gains, colours);
    uint32_t barred;

    for (barred = 0; barred < 1u << COLOURS; barred++) {
        searched_barred("a long cycle for each required colour", m, barred, 0, B, 1);
        searched_barred("none, with a bound one lower", m, barred, 0, B - 1, barred == (1u << COLOURS) - 1);
    }
}

/* The longest plan that is found where there are few pairs. */
enum { FOUND_MOST = (COLOURS + 2) * PLAIN_PAIRS_MOST };

/* Search with two bytes that bar the same colours: one answer, and one plan. */
static void same_found(const char *what, struct model m, uint32_t c, uint32_t b, uint32_t barred, uint32_t other)
{
    uint8_t plan[FOUND_MOST], again[FOUND_MOST];
    uint64_t answer;

    m.barred = (uint8_t)barred;
    answer = search_exactly(what, &m, c, b, plan);
    m.barred = (uint8_t)other;
    check(search_exactly(what, &m, c, b, again) == answer, what);
    check(same(plan, again, chargeplan_prefix(answer) + chargeplan_cycle(answer)), what);
}

/* Every byte gives the plan of the byte without the bits at or above k. */
void test_barred_ignored(void)
{
    struct lists lists;
    struct model m = ring(&lists), g = model_g(), j = model_j(), e = model_e();
    uint32_t barred;

    for (barred = 0; barred <= UINT8_MAX; barred++) {
        same_found("a ring, bits at or above 4", m, 0, RING - 1, barred, barred & 15);
        same_found("G, bits at or above 1", g, 0, 5, barred, barred & 1);
        same_found("J, bits at or above 2", j, 0, 2, barred, barred & 3);
        same_found("E, any bits", e, 10, 10, barred, 0);
    }
}

/* How often each number was answered. */
struct tally {
    unsigned long of[CHARGEPLAN_BARRED_COLOUR + 1];
};

static void count(struct tally *to, uint64_t answer)
{
    to->of[chargeplan_number(answer) % (CHARGEPLAN_BARRED_COLOUR + 1)]++;
}

/* The plan found, judged and walked with every set of barred colours, the one of the search among them. */
static void judge_with_all(struct model m, uint32_t c, uint32_t b, uint64_t found, const uint8_t *plan, struct tally *judgements)
{
    uint32_t p = chargeplan_prefix(found), q = chargeplan_cycle(found), barred, j;
    size_t length = (size_t)p + q;

    for (barred = 0; barred < 1u << m.k; barred++) {
        struct verdict v;
        uint64_t answer;

        m.barred = (uint8_t)(barred | below(UINT8_MAX + 1) << m.k);
        v = plain_judge(&m, c, b, p, q, plan, length);
        answer = judge("a plan with other barred colours", &m, c, b, p, q, plan, length);
        check_answer("a plan with other barred colours", answer, v.number, v.detail);
        count(judgements, answer);
        j = below(m.k + 1);
        check_outcome("a walk with other barred colours", walk("a walk", &m, c, b, p, q, plan, length, j, UINT16_MAX),
            plain_walk(&m, c, b, p, q, plan, length, j, UINT16_MAX));
    }
}

/* Search of small models against the plain one, and with other ignored bits; and judging of what is found. All answers come up. */
void test_random_barred(unsigned long models)
{
    struct tally searches, judgements;
    struct lists lists;
    unsigned long i;

    memset(&searches, 0, sizeof searches);
    memset(&judgements, 0, sizeof judgements);
    for (i = 0; i < models; i++) {
        struct model m = random_fit_model(&lists);
        uint32_t b = below(PLAIN_PAIRS_MOST / m.n), c = below(b + 1);
        uint8_t plan[FOUND_MOST];
        uint64_t answer;

        m.barred = (uint8_t)below(UINT8_MAX + 1);
        answer = search_exactly("barred colours", &m, c, b, plan);
        check(chargeplan_number(answer) == (plain_has_plan(&m, c, b) ? CHARGEPLAN_YES : CHARGEPLAN_NO_PLAN), "barred colours");
        count(&searches, answer);
        same_found("other ignored bits", m, c, b, m.barred, (uint8_t)((m.barred & ((1u << m.k) - 1)) | below(UINT8_MAX + 1) << m.k));
        if (chargeplan_number(answer) == CHARGEPLAN_YES)
            judge_with_all(m, c, b, answer, plan, &judgements);
    }
    if (models < 100)
        return;
    check(searches.of[CHARGEPLAN_YES] >= models / 8 && searches.of[CHARGEPLAN_NO_PLAN] >= models / 8, "models with a plan and without");
    check(judgements.of[CHARGEPLAN_YES] >= models / 8 && judgements.of[CHARGEPLAN_BARRED_COLOUR] >= models / 8
            && judgements.of[CHARGEPLAN_MISSING_COLOUR] >= models / 8, "plans accepted, and refused by 24 and 17");
}

static uint32_t count_required(const struct model *m)
{
    uint32_t required = 0, j;

    for (j = 0; j < m->k; j++)
        required += (m->barred >> j & 1) == 0;
    return required;
}

/* The required ones of some colours, close together. */
static uint32_t close_together(const struct model *m, uint32_t colours)
{
    uint32_t close = 0, to = 0, j;

    for (j = 0; j < m->k; j++)
        if ((m->barred >> j & 1) == 0)
            close |= (colours >> j & 1) << to++;
    return close;
}

/*
 * A plan that lets duties die out is one of a model of two phases, in which nothing is barred: mode s of the first phase is s, of the
 * second n + s. The first phase has all arcs that are on, without their colours, and arcs that change nothing lead to the second. That one
 * has those of them without a barred colour, with the required ones, or with a colour of its own where none is required.
 */
static struct model two_phases(const struct model *m, struct lists *to)
{
    uint32_t required = count_required(m), n = m->n, a;
    size_t arcs = 0;
    struct model r;

    for (a = 0; a < m->sources_length; a++) {
        struct arc first = {m->sources[a], m->targets[a], m->draws[a], m->gains[a], 0, 0}, second = first;

        second.source += n;
        second.target += n;
        second.colours = required == 0 ? 1 : close_together(m, m->colours[a]);
        if (!plain_is_on(m->switches, a))
            continue;
        put(to, arcs++, first);
        if ((m->colours[a] & m->barred) == 0)
            put(to, arcs++, second);
    }
    for (a = 0; a < n; a++) {
        struct arc over = {a, n + a, 0, 0, 0, 0};

        put(to, arcs++, over);
    }
    r = listed(2 * n, required == 0 ? 1 : required, to, arcs);
    r.start = m->start;
    return r;
}

/* A model with n modes, up to 32, and as many arcs as leave room for two phases, with draws and gains for this bound. */
static struct model random_wide(struct lists *to, uint32_t n, uint32_t b)
{
    uint32_t k = below(COLOURS + 1), arcs = below((CHARGEPLAN_ARCS_MOST - n) / 2 + 1), a;
    struct model m = listed(n, k, to, arcs);

    m.start = below(n);
    m.switches = random_switches();
    random_moves(to, arcs, b, b / 4 + 1);
    for (a = 0; a < arcs; a++) {
        to->sources[a] = (uint8_t)below(n);
        to->targets[a] = (uint8_t)below(n);
        to->colours[a] = (uint8_t)(below(1u << k) & below(256) & below(256));
        to->actions[a] = 0;
    }
    return m;
}

/* Search of a model with barred colours, and of its two phases without: models too large for the plain search among them. */
void test_random_phases(unsigned long models)
{
    struct lists lists, phases;
    unsigned long i, with_plan = 0;

    for (i = 0; i < models; i++) {
        int wide = i % 8 == 0;
        uint32_t n = 1 + below(CHARGEPLAN_MODES_MOST / 2), b = wide ? below(CHARGEPLAN_PRODUCT_MOST / (2 * n)) : below(40);
        uint32_t c = below(b + 1), number;
        struct model m = wide ? random_wide(&lists, n, b) : random_fit_model(&lists), twice;

        m.barred = (uint8_t)below(UINT8_MAX + 1);
        twice = two_phases(&m, &phases);
        number = chargeplan_number(search_exactly("one phase", &m, c, b, NULL));
        check(number == chargeplan_number(search_exactly("two phases", &twice, c, b, NULL)), "one phase and two");
        with_plan += number == CHARGEPLAN_YES;
    }
    if (models >= 100)
        check(with_plan >= models / 8 && with_plan <= models - models / 8, "models with a plan and without");
}
