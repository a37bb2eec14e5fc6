/*
 * The least credit and the least bound (document 02, Ask 8): their refusals, their working space, barred colours and switches. Models whose
 * numbers are known are in least_models.c, random ones in least_random.c.
 */
#include "leasts.h"

enum { ARCS = CHARGEPLAN_ARCS_MOST, SHORT = 4096 };

/* The model is refused with levels that are right and wrong, without a space and with one. */
static void refused_everywhere(const char *what, const struct model *m, uint32_t number, uint64_t detail)
{
    static const uint32_t given[] = {0, 5, 8191, 8192, UINT32_MAX};
    size_t i;

    for (i = 0; i < sizeof given / sizeof given[0]; i++)
        leasts_refused(what, m, given[i], number, (uint32_t)detail);
    least_refused(what, LEAST_CREDIT, m, 5, SHORT, number, (uint32_t)detail);
    least_refused(what, LEAST_BOUND, m, 5, SHORT, number, (uint32_t)detail);
}

/* 1 to 5; all_refused() tries them, too. */
void test_least_unfit(void)
{
    static const uint32_t starts[] = {2, 3, 256, 65536, UINT32_MAX};
    static const struct arc unfit[] = {{0, 0, 0, 0, 0, 0}, {0, 0, 10001, 0, 0, 0}, {1, 0, 0, 0, 0, 0}};
    struct lists lists;
    struct model g = model_g(), m = of_arcs(&lists, 1, 0, unfit, 3);
    size_t i;

    each_wrong_number(&g, refused_everywhere);
    each_wrong_list(refused_everywhere);
    for (i = 0; i < sizeof starts / sizeof starts[0]; i++) {
        g.start = starts[i];
        refused_everywhere("2: start mode", &g, CHARGEPLAN_START_MODE, 0);
    }
    m.switches = all_off;
    refused_everywhere("5: the lowest unfit arc, off", &m, CHARGEPLAN_UNFIT_ARC, 1);
    least_refused("5: a space for every model", LEAST_CREDIT, &m, 0, CHARGEPLAN_WORK_WORDS_MOST, CHARGEPLAN_UNFIT_ARC, 1);
    least_refused("5: a space for every model", LEAST_BOUND, &m, 0, CHARGEPLAN_WORK_WORDS_MOST, CHARGEPLAN_UNFIT_ARC, 1);
}

/* The call is refused, also without a space. */
static void refused_level(const char *what, enum least of, const struct model *m, uint32_t given, uint32_t number)
{
    least_refused(what, of, m, given, 0, number, 0);
    least_refused(what, of, m, given, SHORT, number, 0);
}

/* Levels above 8,191, of which none is cut down: 6 of the least credit, and 7, not 6, of the least bound. */
static void great_levels(uint32_t n)
{
    static const uint32_t great[] = {8192, 8193, 65535, 65536, 65541, 1 << 20, 1 << 24, (1 << 26) - 1, 1 << 26, INT32_MAX, 0x80000000u,
        0xfffffffeu, UINT32_MAX};
    struct model m = model_a();
    size_t i;

    m.n = n;
    for (i = 0; i < sizeof great / sizeof great[0]; i++) {
        refused_level("6: b", LEAST_CREDIT, &m, great[i], CHARGEPLAN_LEVELS);
        refused_level("7: c", LEAST_BOUND, &m, great[i], CHARGEPLAN_PRODUCT);
    }
    least_refused("6: a space for every model", LEAST_CREDIT, &m, UINT32_MAX, CHARGEPLAN_WORK_WORDS_MOST, CHARGEPLAN_LEVELS, 0);
    least_refused("7: a space for every model", LEAST_BOUND, &m, UINT32_MAX, CHARGEPLAN_WORK_WORDS_MOST, CHARGEPLAN_PRODUCT, 0);
}

/* The largest bound, and one more. */
static void largest_levels(uint32_t n, uint32_t largest)
{
    struct model m = model_a();

    m.n = n;
    check(chargeplan_largest_bound(n) == largest, "the largest bound");
    least_is("the largest b", LEAST_CREDIT, &m, largest, 0);
    least_is("the largest c", LEAST_BOUND, &m, largest, largest);
    refused_level("one more", LEAST_CREDIT, &m, largest + 1, largest + 1 > 8191 ? CHARGEPLAN_LEVELS : CHARGEPLAN_PRODUCT);
    refused_level("one more", LEAST_BOUND, &m, largest + 1, CHARGEPLAN_PRODUCT);
    if (n > 1) {
        refused_level("7: a bound of other models", LEAST_CREDIT, &m, 8191, CHARGEPLAN_PRODUCT);
        refused_level("7: a credit of other models", LEAST_BOUND, &m, 8191, CHARGEPLAN_PRODUCT);
    }
}

/* "A c that as b would already pass that ceiling is 7, with 6 not looked at." */
void test_least_levels(void)
{
    great_levels(1);
    great_levels(2);
    great_levels(64);
    largest_levels(1, 8191);
    largest_levels(2, 4095);
    largest_levels(3, 2729);
    largest_levels(5, 1637);
    largest_levels(33, 247);
    largest_levels(63, 129);
    largest_levels(64, 127);
}

/*
 * A space of so many words, whatever the answer is: one word fewer is 8, and of a longer one every word is 0. What stands in it does not
 * matter.
 */
static void spaces(enum least of, uint32_t n, uint32_t k, uint32_t given, size_t words)
{
    static const size_t longer[] = {0, 1, 2, 100, LEAST_LONGER_MOST};
    struct lists lists;
    struct model yes = every_colouring(&lists, k), no = without_arcs(n, k);
    uint32_t value = of == LEAST_CREDIT ? 0 : given;
    size_t i;

    yes.n = n;
    for (i = 0; i < sizeof longer / sizeof longer[0]; i++) {
        check_least("a number", least("a number", of, &yes, given, words + longer[i], (unsigned)i), CHARGEPLAN_YES, 0, value);
        check_least("10", least("10", of, &no, given, words + longer[i], (unsigned)i + 9), CHARGEPLAN_NO_PLAN, 0, 0);
    }
    least_refused("8", of, &yes, given, words - 1, CHARGEPLAN_WORKING_SPACE, 0);
    least_refused("8, no plan", of, &no, given, words - 1, CHARGEPLAN_WORKING_SPACE, 0);
    least_refused("8: half of it", of, &yes, given, words / 2, CHARGEPLAN_WORKING_SPACE, 0);
    least_refused("8: no space", of, &yes, given, 0, CHARGEPLAN_WORKING_SPACE, 0);
}

/* The space of the least credit is for b, that of the least bound for the largest bound, whatever c is. */
static void spaces_of(uint32_t n, uint32_t k, uint32_t largest)
{
    static const uint32_t small[] = {1, 7};
    size_t of_0 = 4 * (k + 1) * n, words = of_0 * (largest + 1), i;
    struct model no = without_arcs(n, k);

    check(chargeplan_least_bound_words(n, k) == words, "the words of the least bound");
    spaces(LEAST_CREDIT, n, k, largest, words);
    spaces(LEAST_BOUND, n, k, largest, words);
    spaces(LEAST_CREDIT, n, k, 0, of_0);
    spaces(LEAST_BOUND, n, k, 0, words);
    for (i = 0; i < sizeof small / sizeof small[0]; i++) {
        spaces(LEAST_CREDIT, n, k, small[i], of_0 * (small[i] + 1));
        least_refused("8: space for c", LEAST_BOUND, &no, small[i], of_0 * (small[i] + 1), CHARGEPLAN_WORKING_SPACE, 0);
    }
}

void test_least_spaces(void)
{
    uint32_t k;

    for (k = 0; k <= CHARGEPLAN_COLOURS_MOST; k += 2) {
        spaces_of(1, k, 8191);
        spaces_of(3, k, 2729);
        spaces_of(63, k, 129);
    }
    spaces_of(5, 1, 1637);
    spaces_of(64, 3, 127);
    spaces_of(64, 4, 127);
    check(chargeplan_least_bound_words(64, 4) == CHARGEPLAN_WORK_WORDS_MOST, "the longest space");
}

/* What is answered for two modes with 4 * 2 * 4,096 words, or one fewer, where the model is fit and there is a plan. */
static uint32_t later_fault(enum least of, uint32_t given, size_t words)
{
    if (of == LEAST_CREDIT && given > 8191)
        return CHARGEPLAN_LEVELS;
    if (given > 4095)
        return CHARGEPLAN_PRODUCT;
    return words < 32768 ? CHARGEPLAN_WORKING_SPACE : CHARGEPLAN_YES;
}

/* The model with these faults, and with right and wrong levels and spaces: the first is answered. */
static void order(enum least of, unsigned faults, uint32_t given, size_t words)
{
    static const char what[] = "the order of the refusals";
    struct lists lists;
    struct model m = with_faults(&lists, faults, 1);
    uint32_t own = first_fault(faults), number = own != 0 ? own : later_fault(of, given, words), detail = own == CHARGEPLAN_UNFIT_ARC;

    if (m.n == 1)
        m.n = 2;
    check_least(what, least(what, of, &m, given, words, 5), number, detail,
        of == LEAST_BOUND && number == CHARGEPLAN_YES ? given : 0);
    m.switches = all_off;
    check_least(what, least(what, of, &m, given, words, 6), number != CHARGEPLAN_YES ? number : CHARGEPLAN_NO_PLAN, detail, 0);
}

/* Every set of faults of the model. */
void test_least_order(void)
{
    static const uint32_t given[] = {4095, 4096, 8192};
    unsigned faults;
    size_t i, words;

    for (faults = 0; faults < 1u << MODEL_FAULTS; faults++)
        for (i = 0; i < sizeof given / sizeof given[0]; i++)
            for (words = 32767; words <= 32768; words++) {
                order(LEAST_CREDIT, faults, given[i], words);
                order(LEAST_BOUND, faults, given[i], words);
            }
}

/* The model with modes that no arc enters: so the largest bound is 127, and the plain search can try each. */
static struct model among_64(struct model m)
{
    m.n = CHARGEPLAN_MODES_MOST;
    return m;
}

/* The call against the plain search, and with any bits at or above k the same. */
static void with_bytes(const char *what, enum least of, struct model m, uint32_t given)
{
    static const uint32_t above[] = {1, 10, 255};
    size_t words = plain_least_words(of, &m, given), i;
    uint32_t barred;

    for (barred = 0; barred < 1u << m.k; barred++) {
        uint64_t answer;

        m.barred = (uint8_t)barred;
        answer = least_tried(what, of, &m, given, words, barred);
        for (i = 0; i < sizeof above / sizeof above[0]; i++) {
            m.barred = (uint8_t)(barred | above[i] << m.k);
            check(least(what, of, &m, given, words, barred + 1) == answer, what);
        }
    }
}

/* A barred loop charges before the cycle: it is no cycle itself. */
static void test_charged_before(void)
{
    static const struct arc arcs[] = {{0, 0, 0, 1, 2, 0}, {0, 0, 7, 7, 1, 0}};
    struct lists lists;
    struct model m = of_arcs(&lists, 1, 2, arcs, 2);

    m.barred = 2;
    least_is("charged by a barred arc in the prefix", LEAST_CREDIT, &m, 20, 0);
    least_is("charged by a barred arc in the prefix", LEAST_BOUND, &m, 0, 7);
    least_is_none("the bound is too small for it", LEAST_CREDIT, &m, 6);
    m.switches = with_off(all_on, 0);
    least_is("it is off", LEAST_CREDIT, &m, 20, 7);
    least_is_none("it is off", LEAST_BOUND, &m, 6);
    least_is("it is off, and not needed", LEAST_BOUND, &m, 8, 8);
    m.switches = all_on;
    m.barred = 1;
    least_is("the other one is barred", LEAST_BOUND, &m, 0, 0);
    m.barred = 3;
    least_is_none("both are barred", LEAST_CREDIT, &m, 20);
    least_is_none("both are barred", LEAST_BOUND, &m, 20);
}

void test_least_barred(void)
{
    static const struct {
        const char *what;
        struct model (*of)(void);
        uint32_t b, c;
    } examples[] = {{"J", model_j, 2, 0}, {"J, a larger bound", model_j, 30, 3}, {"G", model_g, 5, 0}, {"H", model_g, 4, 4}};
    size_t i;

    for (i = 0; i < sizeof examples / sizeof examples[0]; i++) {
        with_bytes(examples[i].what, LEAST_CREDIT, examples[i].of(), examples[i].b);
        with_bytes(examples[i].what, LEAST_BOUND, among_64(examples[i].of()), examples[i].c);
    }
    test_charged_before();
}

/* The least credit with these switches. */
static void credit_on(const char *what, struct model m, struct switches s, uint32_t b, uint32_t c)
{
    m.switches = s;
    least_is(what, LEAST_CREDIT, &m, b, c);
}

/* 253 loops of mode 0, of which one alone gains, at every place; the way to the loop with the colour draws 9. */
static void test_lone_loop(void)
{
    enum { LOOPS = ARCS - 2, DRAW = 9 };
    static const struct arc still = {0, 0, 0, 0, 0, 0}, way = {0, 1, DRAW, 0, 0, 0}, end = {1, 1, 0, 0, 1, 0};
    struct lists lists;
    struct model m;
    size_t a;

    for (a = 0; a < LOOPS; a++)
        put(&lists, a, still);
    put(&lists, LOOPS, way);
    put(&lists, LOOPS + 1, end);
    m = listed(2, 1, &lists, ARCS);
    for (a = 0; a < LOOPS; a++) {
        lists.gains[a] = 1;
        credit_on("one arc gains", m, all_on, DRAW, 0);
        credit_on("it is off", m, with_off(all_on, a), DRAW + 1, DRAW);
        credit_on("all other loops are off", m, with_on(with_from(all_off, LOOPS, 1), a), DRAW, 0);
        lists.gains[a] = 0;
    }
    lists.gains[70] = 1;
    least_is("one arc gains", LEAST_BOUND, &m, 0, DRAW);
    m.switches = with_off(all_on, 70);
    least_is_none("it is off", LEAST_BOUND, &m, DRAW - 1);
    least_is("it is off, and not needed", LEAST_BOUND, &m, DRAW, DRAW);
    m.switches = with_off(all_on, LOOPS);
    least_is_none("the way is off", LEAST_CREDIT, &m, 40);
    least_is_none("the way is off", LEAST_BOUND, &m, 40);
}

/* Of two modes the last arc alone leads back; models of many lengths, with any bits at or above m. */
static void test_bits_above(void)
{
    static const size_t lengths[] = {2, 3, 63, 64, 65, 127, 128, 129, 191, 192, 193, 254, 255};
    struct lists lists;
    size_t i, a;

    for (i = 0; i < sizeof lengths / sizeof lengths[0]; i++) {
        size_t arcs = lengths[i];
        struct model m = listed(2, 0, &lists, arcs);

        for (a = 0; a < arcs; a++) {
            struct arc arc = {a + 1 == arcs, a + 1 != arcs, a + 1 == arcs, a + 1 != arcs, 0, 0};

            put(&lists, a, arc);
        }
        credit_on("all on, no bits above", m, with_from(all_on, arcs, 0), 1, 0);
        credit_on("two on, all bits above", m, with_from(with_on(all_off, 0), arcs - 1, 1), 1, 0);
        m.switches = with_off(all_on, arcs - 1);
        least_is_none("the last off, all bits above", LEAST_CREDIT, &m, 1);
        m.switches = with_from(all_off, arcs, 1);
        least_is_none("all off, all bits above", LEAST_CREDIT, &m, 1);
    }
}

void test_least_switches(void)
{
    struct model g = model_g();

    test_lone_loop();
    test_bits_above();
    g.switches = with_from(with_off(all_on, 0), 3, 0);
    least_is("G without charging", LEAST_CREDIT, &g, 100, 5);
    least_is("G without charging", LEAST_BOUND, &g, 5, 5);
    least_is_none("G without charging, one less", LEAST_BOUND, &g, 4);
}
