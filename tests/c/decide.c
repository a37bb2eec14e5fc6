/*
 * The decision (document 02, Ask 12): its limits and refusals, its working space, barred colours and switches. Models with a great bound
 * whose answer is known are in decide_models.c, random ones in decide_random.c; every search of the C tests that answers 0 or 10 is
 * followed by a decision, too.
 */
#include "decides.h"

enum { MODES = CHARGEPLAN_MODES_MOST, ARCS = CHARGEPLAN_ARCS_MOST, MOST = CHARGEPLAN_DECIDE_BOUND_MOST, DRAW = CHARGEPLAN_DRAW_MOST };

/* The model is refused with levels that are right, that only the decision takes, and that are wrong. */
static void refused_everywhere(const char *what, const struct model *m, uint32_t number, uint64_t detail)
{
    decide_refused(what, m, 0, 5, number, (uint32_t)detail);
    decide_refused(what, m, MOST, MOST, number, (uint32_t)detail);
    decide_refused(what, m, 1, 0, number, (uint32_t)detail);
}

/* 1 to 5; all_refused() tries them, too. */
void test_decide_unfit(void)
{
    static const uint32_t starts[] = {2, 3, 256, 65536, UINT32_MAX};
    static const struct arc unfit[] = {{0, 0, 0, 0, 0, 0}, {0, 0, 10001, 0, 0, 0}, {1, 0, 0, 0, 0, 0}};
    struct lists lists;
    struct model g = model_g(), m = of_arcs(&lists, 1, 0, unfit, 3);
    size_t i;

    each_wrong_number(&g, refused_everywhere);
    each_wrong_list(refused_everywhere);
    for (i = 0; i < sizeof starts / sizeof starts[0]; i++) {
        g.start = starts[i];
        refused_everywhere("2: start mode", &g, CHARGEPLAN_START_MODE, 0);
    }
    m.switches = all_off;
    refused_everywhere("5: the lowest unfit arc, off", &m, CHARGEPLAN_UNFIT_ARC, 1);
}

/* 6 only where b is above 1,000,000 or c above b: no number is cut down, and a bound that search refuses is none. */
void test_decide_levels(void)
{
    static const uint32_t right[] = {0, 1, 5, 8191, 8192, 8193, 65535, 65536, 65541, MOST - 1, MOST},
                          wrong[] = {MOST + 1, 1 << 20, 1 << 24, INT32_MAX, 0x80000000u, UINT32_MAX - 1, UINT32_MAX};
    struct model a = model_a(), b = model_b();
    size_t i;

    for (i = 0; i < sizeof right / sizeof right[0]; i++) {
        decided("c 0", &a, 0, right[i], 1);
        decided("c is b", &a, right[i], right[i], 1);
        decided("c 0, no plan", &b, 0, right[i], 0);
        decided("c is b, no plan", &b, right[i], right[i], 0);
        decide_refused("6: c is above b", &a, right[i] + 1, right[i], CHARGEPLAN_LEVELS, 0);
        decide_refused("6: c is not cut to 16 bits", &a, right[i] + 65536, right[i], CHARGEPLAN_LEVELS, 0);
        decide_refused("6: the greatest c", &a, UINT32_MAX, right[i], CHARGEPLAN_LEVELS, 0);
    }
    for (i = 0; i < sizeof wrong / sizeof wrong[0]; i++) {
        decide_refused("6: b", &a, 0, wrong[i], CHARGEPLAN_LEVELS, 0);
        decide_refused("6: b, and c is b", &a, wrong[i], wrong[i], CHARGEPLAN_LEVELS, 0);
    }
    refused("search refuses a bound that the decision takes", &a, 0, 8192, CHARGEPLAN_LEVELS, 0);
}

/* n * (b + 1) above 8,192: 7 is not looked at, and there is no plan buffer that could be too short. */
void test_decide_products(void)
{
    static const uint32_t bounds[] = {127, 128, 8191, 8192, 65536, MOST};
    struct model none = without_arcs(MODES, 4), all = model(MODES, 0, ARCS, zeros, zeros, nothing, nothing, zeros);
    size_t i;

    for (i = 0; i < sizeof bounds / sizeof bounds[0]; i++) {
        decided("64 modes and no arcs", &none, 0, bounds[i], 0);
        decided("64 modes and 255 arcs", &all, bounds[i], bounds[i], 1);
    }
    check_answer("search refuses it", search("search refuses it", &all, 0, 8191, 0, 0, 3), CHARGEPLAN_PRODUCT, 0);
}

/* A space of 16 * (k + 1) * n words, whatever b and the answer are: one word fewer is 8, and of a longer one every word is 0. */
static void spaces(uint32_t n, uint32_t k, uint32_t b)
{
    static const size_t longer[] = {0, 1, 2, 3, 15, 16, 100, 5120};
    struct lists lists;
    struct model yes = every_colouring(&lists, k), no = without_arcs(n, k);
    size_t words = 16 * (k + 1) * n, i;

    yes.n = n;
    check(chargeplan_decide_words(n, k) == words, "the words of a decision");
    for (i = 0; i < sizeof longer / sizeof longer[0]; i++) {
        check_answer("yes", decide("yes", &yes, 0, b, words + longer[i], 0xbeefu + (unsigned)i), CHARGEPLAN_YES, 0);
        check_answer("10", decide("10", &no, 0, b, words + longer[i], 0xcafeu + (unsigned)i), CHARGEPLAN_NO_PLAN, 0);
    }
    for (i = 1; i <= words; i = 2 * i + 1) {
        check_answer("8", decide("8", &yes, 0, b, words - i, 0xfeedu + (unsigned)i), CHARGEPLAN_WORKING_SPACE, 0);
        check_answer("8, no plan", decide("8", &no, 0, b, words - i, 0xfeedu + (unsigned)i), CHARGEPLAN_WORKING_SPACE, 0);
    }
    check_answer("8: no space", decide("8", &yes, 0, b, 0, 0), CHARGEPLAN_WORKING_SPACE, 0);
}

void test_decide_spaces(void)
{
    static const uint32_t modes[] = {1, 2, 5, 63, 64}, bounds[] = {0, 1, 127, 8191, MOST};
    uint32_t k;
    size_t i, j;

    for (k = 0; k <= CHARGEPLAN_COLOURS_MOST; k++)
        for (i = 0; i < sizeof modes / sizeof modes[0]; i++)
            for (j = 0; j < sizeof bounds / sizeof bounds[0]; j++)
                spaces(modes[i], k, bounds[j]);
    check(chargeplan_decide_words(64, 4) == CHARGEPLAN_DECIDE_WORDS_MOST, "the longest space");
}

/* Every set of faults of the model, with right and wrong levels and spaces: the first is answered. */
void test_decide_order(void)
{
    static const char what[] = "the order of the refusals";
    struct lists lists;
    unsigned faults;
    uint32_t c;
    size_t words;

    for (faults = 0; faults < 1u << MODEL_FAULTS; faults++)
        for (c = MOST; c <= MOST + 1; c++)
            for (words = 15; words <= 16; words++) {
                struct model m = with_faults(&lists, faults, 1);
                uint32_t own = first_fault(faults), later = c > MOST ? CHARGEPLAN_LEVELS : words < 16 ? CHARGEPLAN_WORKING_SPACE : 0;

                check_answer(what, decide(what, &m, c, MOST, words, 0x77u), own != 0 ? own : later, own == CHARGEPLAN_UNFIT_ARC);
                m.switches = all_off;
                if (later == 0)
                    later = CHARGEPLAN_NO_PLAN;
                check_answer(what, decide(what, &m, c, MOST, words, 0x78u), own != 0 ? own : later, own == CHARGEPLAN_UNFIT_ARC);
            }
}

/* Every byte of barred colours on an example: the answer of the plain search for its colours, whatever the bits at or above k are. */
static void every_byte(const char *what, struct model m, uint32_t c, uint32_t b, uint32_t times)
{
    struct lists lists;
    uint32_t barred;

    for (barred = 0; barred <= UINT8_MAX; barred++) {
        struct model s;

        m.barred = (uint8_t)(barred & ((1u << m.k) - 1));
        s = scaled(&m, times, &lists);
        s.barred = (uint8_t)barred;
        decided(what, &s, c * times, b * times, plain_has_plan(&m, c, b));
    }
}

/* A barred loop charges before the cycle, at a great bound. It would be no cycle, and where it is not barred no cycle has both colours. */
static void test_charged_before(void)
{
    static const uint32_t bounds[] = {1, 8192, 65536, 600000};
    struct sketch s = sketch(1, 2);
    struct model m;
    size_t i;

    add_arc(&s, 0, 0, 0, 1, 2);
    for (i = 0; i < sizeof bounds / sizeof bounds[0]; i++) {
        has_peak("charged by barred arcs in the prefix", &s, 2, 0, 0, bounds[i], bounds[i]);
        has_peak("bits at or above k are set, too", &s, 0xfe, 0, 0, bounds[i], bounds[i]);
    }
    m = of_sketch(&s);
    m.barred = 2;
    decided("the barred loop alone", &m, 0, MOST, 0);
    m.barred = 1;
    decided("the loop with the required colour", &m, 0, MOST, 1);
    m.barred = 3;
    decided("both are barred", &m, 0, MOST, 0);
    m.barred = 0;
    decided("a required colour is on no arc", &m, 0, MOST, 0);
    add_arc(&s, 0, 0, CHARGEPLAN_DRAW_MOST, CHARGEPLAN_GAIN_MOST, 1);
    m = of_sketch(&s);
    m.barred = 2;
    decided("the cycle begins where the barred loop charges", &m, 0, MOST, 1);
    decided("the cycle begins where the barred loop charges, too small a bound", &m, 0, CHARGEPLAN_DRAW_MOST - 1, 0);
}

void test_decide_barred(void)
{
    struct lists lists;
    struct model four = every_colouring(&lists, 4);
    uint32_t barred;

    every_byte("J, every byte", model_j(), 0, 2, DRAW / 2);
    every_byte("J with a greater bound, every byte", model_j(), 1, 30, DRAW / 2);
    every_byte("G, every byte", model_g(), 0, 5, DRAW / 5);
    every_byte("H, every byte", model_g(), 0, 4, DRAW / 5);
    every_byte("E, every byte", model_e(), 10, 10, DRAW / 3);
    test_charged_before();
    for (barred = 0; barred <= UINT8_MAX; barred++) {
        four.barred = (uint8_t)barred;
        decided("an arc for every set of colours, every byte", &four, 0, MOST, 1);
    }
    lists.colours[0] = 8;
    four.barred = 15;
    decided("all are barred, and every arc has a colour", &four, 0, MOST, 0);
    four.barred = 7;
    decided("all but one are barred", &four, 0, MOST, 1);
}

/* The decision with these switches. */
static void decided_on(const char *what, struct model m, struct switches s, uint32_t c, int has_plan)
{
    m.switches = s;
    decided(what, &m, c, MOST, has_plan);
}

/* 253 loops of mode 0, of which one alone gains, at every place; the way to the loop with the colour has the greatest draw. */
static void test_lone_loop(void)
{
    enum { LOOPS = ARCS - 2 };
    struct sketch s = sketch(2, 1);
    struct model m;
    size_t a;

    while (s.arcs < LOOPS)
        add_arc(&s, 0, 0, 0, 0, 0);
    add_arc(&s, 0, 1, DRAW, 0, 0);
    add_arc(&s, 1, 1, 0, 0, 1);
    m = of_sketch(&s);
    for (a = 0; a < LOOPS; a++) {
        s.lists.gains[a] = 1;
        decided_on("one arc gains", m, all_on, 0, 1);
        decided_on("it is off", m, with_off(all_on, a), 0, 0);
        decided_on("it is off, and not needed", m, with_off(all_on, a), DRAW, 1);
        decided_on("all other loops are off", m, with_on(with_from(all_off, LOOPS, 1), a), 0, 1);
        s.lists.gains[a] = 0;
    }
    decided_on("no arc gains", m, all_on, DRAW - 1, 0);
    decided_on("the way is off", m, with_off(all_on, LOOPS), MOST, 0);
    decided_on("the loop with the colour is off", m, with_off(all_on, LOOPS + 1), MOST, 0);
}

/* Of two modes the last arc alone leads back; models of many lengths, with any bits at or above m. */
static void test_bits_above(void)
{
    static const size_t lengths[] = {2, 3, 63, 64, 65, 127, 128, 129, 191, 192, 193, 254, 255};
    struct lists lists;
    size_t i, a;

    for (i = 0; i < sizeof lengths / sizeof lengths[0]; i++) {
        size_t m = lengths[i];
        struct model two = listed(2, 0, &lists, m);

        for (a = 0; a < m; a++) {
            struct arc arc = {a + 1 == m, a + 1 != m, 0, 0, 0, 0};

            put(&lists, a, arc);
        }
        decided_on("all on, no bits above", two, with_from(all_on, m, 0), 0, 1);
        decided_on("two on, all bits above", two, with_from(with_on(all_off, 0), m - 1, 1), 0, 1);
        decided_on("two on, no bits above", two, with_on(with_on(all_off, 0), m - 1), 0, 1);
        decided_on("the last off, all bits above", two, with_off(all_on, m - 1), 0, 0);
        decided_on("all off, all bits above", two, with_from(all_off, m, 1), 0, 0);
    }
}

void test_decide_switches(void)
{
    test_lone_loop();
    test_bits_above();
}
