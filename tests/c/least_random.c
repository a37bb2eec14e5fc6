/* The least credit and the least bound: random models, against the plain search, against search, and scaled up. */
#include "leasts.h"

#include <string.h>

/* How many random answers had each number, up to 10. */
static unsigned long answers[CHARGEPLAN_NO_PLAN + 1];

static void count(uint64_t answer)
{
    answers[chargeplan_number(answer) % (CHARGEPLAN_NO_PLAN + 1)]++;
}

/* Of the answers since the last look, an eighth are a number, and an eighth 10. */
static void check_both(const char *what, unsigned long models)
{
    check(models < 100 || (answers[CHARGEPLAN_YES] >= models / 8 && answers[CHARGEPLAN_NO_PLAN] >= models / 8), what);
    memset(answers, 0, sizeof answers);
}

/* A small level; now and then one that is too great for so many modes, or for any. */
static uint32_t random_given(uint32_t n)
{
    switch (below(48)) {
    case 0: return 8192 + below(3);
    case 1: return UINT32_MAX - below(300);
    case 2: return 65536 * (1 + below(9)) + below(40);
    case 3: return chargeplan_largest_bound(n) + 1 + below(3);
    default: return below(40);
    }
}

/* The words of a space; now and then too few. What the space of a refused call is, does not matter. */
static size_t random_words(enum least of, const struct model *m, uint32_t given)
{
    size_t words = plain_least_refusal(of, m, given, CHARGEPLAN_WORK_WORDS_MOST).number != 0 ? 64 : plain_least_words(of, m, given);

    return below(16) == 0 ? below((uint32_t)words) : words + below(4);
}

/* A small model, some of them unfit; in a fit one so many modes more, which no arc enters, that the plain search can try each bound. */
static struct model random_tried_model(enum least of, struct lists *lists)
{
    struct model m = random_model(lists);

    if (of == LEAST_BOUND && plain_fitness(&m, 0, 0).number == 0)
        m.n = CHARGEPLAN_MODES_MOST - below(24);
    return m;
}

/* Small models, with small levels and spaces, some of them wrong, against the plain refusals and every number that may be tried. */
static void tried_one_by_one(const char *what, enum least of, unsigned long models)
{
    static const uint32_t numbers[] = {0, 1, 2, 3, 4, 5, 7, 8, 10};
    struct lists lists;
    unsigned long i;

    memset(&lists, 0, sizeof lists);
    memset(answers, 0, sizeof answers);
    for (i = 0; i < models; i++) {
        struct model m = random_tried_model(of, &lists);
        uint32_t given = random_given(m.n);

        count(least_tried(what, of, &m, given, random_words(of, &m, given), below(UINT16_MAX)));
    }
    check(models < 1000 || of == LEAST_BOUND || answers[CHARGEPLAN_LEVELS] * 1000 >= models, what);
    for (i = 0; models >= 1000 && i < sizeof numbers / sizeof numbers[0]; i++)
        check(answers[numbers[i]] * 1000 >= models, what);
}

void test_random_least_credits(unsigned long models)
{
    tried_one_by_one("random least credit", LEAST_CREDIT, models);
}

void test_random_least_bounds(unsigned long models)
{
    tried_one_by_one("random least bound", LEAST_BOUND, models);
}

static uint32_t smaller(uint32_t x, uint32_t y)
{
    return x < y ? x : y;
}

/* A model of many modes and arcs with draws and gains that are small, or up to a part of the bound, and few gains or many. */
static struct model random_searched_model(struct lists *lists, uint32_t *b)
{
    struct model m = random_large_model(lists);

    *b = below((chargeplan_largest_bound(m.n) >> below(10)) + 1);
    if (below(3))
        random_moves(lists, m.sources_length, smaller(*b / (1 + below(8)) + 1, CHARGEPLAN_DRAW_MOST),
            smaller(*b / (1 + below(64)) + 1, CHARGEPLAN_GAIN_MOST));
    return m;
}

/* Search at the value finds a plan, and with a random one behind it; with one less there is none, and with a random one before it. */
static void agrees(const char *what, enum least of, const struct model *m, uint32_t given, uint64_t answer)
{
    uint32_t first = plain_first_tried(of, given), last = plain_last_tried(of, m, given), value = chargeplan_value(answer);

    if (answer == CHARGEPLAN_NO_PLAN) {
        check(least_searched(what, of, m, given, last) == CHARGEPLAN_NO_PLAN, what);
        check(least_searched(what, of, m, given, first + below(last - first + 1)) == CHARGEPLAN_NO_PLAN, what);
        return;
    }
    check_least(what, answer, CHARGEPLAN_YES, 0, value);
    check(first <= value && value <= last, what);
    if (value < first || value > last)
        return;
    check(least_searched(what, of, m, given, value) == CHARGEPLAN_YES, what);
    check(least_searched(what, of, m, given, value + below(last - value + 1)) == CHARGEPLAN_YES, what);
    if (value == first)
        return;
    check(least_searched(what, of, m, given, value - 1) == CHARGEPLAN_NO_PLAN, what);
    check(least_searched(what, of, m, given, first + below(value - first)) == CHARGEPLAN_NO_PLAN, what);
}

/* Models too large for the plain search, against search. */
void test_random_leasts_and_searches(unsigned long models)
{
    static const char what[] = "least numbers, and searches";
    struct lists lists;
    unsigned long i;

    memset(answers, 0, sizeof answers);
    for (i = 0; i < models; i++) {
        uint32_t b;
        struct model m = random_searched_model(&lists, &b);
        enum least of = i % 2 ? LEAST_BOUND : LEAST_CREDIT;
        uint32_t given = of == LEAST_CREDIT ? b : below(2) ? 0 : below(b + 1);
        uint64_t answer = least_exactly(what, of, &m, given);

        agrees(what, of, &m, given, answer);
        count(answer);
    }
    check_both("least numbers, and searches: models with a plan and without", models);
}

/* The least bound v of a credit c: the least credit for v is c at most, and for one less, not below c, it is above c, or there is none. */
void test_random_least_pairs(unsigned long models)
{
    static const char what[] = "least bound and least credit";
    struct lists lists;
    unsigned long i;

    memset(answers, 0, sizeof answers);
    for (i = 0; i < models; i++) {
        struct model m = random_fit_model(&lists);
        uint32_t c = below(2) ? 0 : below(20), v;
        uint64_t answer = least_exactly(what, LEAST_BOUND, &m, c), back;

        count(answer);
        v = answer == CHARGEPLAN_NO_PLAN ? chargeplan_largest_bound(m.n) + 1 : chargeplan_value(answer);
        if (answer != CHARGEPLAN_NO_PLAN) {
            back = least_exactly(what, LEAST_CREDIT, &m, v);
            check(chargeplan_number(back) == CHARGEPLAN_YES && chargeplan_value(back) <= c, what);
        }
        if (v > c) {
            back = least_exactly(what, LEAST_CREDIT, &m, v - 1);
            check(back == CHARGEPLAN_NO_PLAN || (chargeplan_number(back) == CHARGEPLAN_YES && chargeplan_value(back) > c), what);
        }
    }
    check_both("least bound and least credit: models with a plan and without", models);
}

/*
 * With draws, gains and what is given all so many times as great, every charge is, rounded down: so the value is, too, or there is none up
 * to the largest bound.
 */
void test_random_scaled_leasts(unsigned long models)
{
    static const char what[] = "least numbers of models scaled up";
    struct lists lists, to;
    unsigned long i;

    memset(answers, 0, sizeof answers);
    for (i = 0; i < models; i++) {
        struct model m = random_fit_model(&lists), s;
        enum least of = i % 2 ? LEAST_BOUND : LEAST_CREDIT;
        uint32_t given = below(20), largest = chargeplan_largest_bound(m.n), times = 1 + below(largest / (given + 1)), value;
        uint64_t small = least_exactly(what, of, &m, given), answer;

        times = smaller(times, CHARGEPLAN_GAIN_MOST / SMALL_MOVE_MOST);
        s = scaled(&m, times, &to);
        answer = least_exactly(what, of, &s, given * times);
        value = chargeplan_value(small) * times;
        if (small == CHARGEPLAN_NO_PLAN || value > largest)
            check_least(what, answer, CHARGEPLAN_NO_PLAN, 0, 0);
        else
            check_least(what, answer, CHARGEPLAN_YES, 0, value);
        count(answer);
    }
    check_both("least numbers of models scaled up: models with a plan and without", models);
}
