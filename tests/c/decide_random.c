/* The decision: random models, against the plain search over pairs of mode and charge, against search, and scaled up. */
#include "decides.h"
#include "plain_reach.h"

#include <string.h>

enum { MOST = CHARGEPLAN_DECIDE_BOUND_MOST };

/* How many random answers had each number, up to 10. */
static unsigned long answers[CHARGEPLAN_NO_PLAN + 1];

static void count(uint64_t answer)
{
    answers[chargeplan_number(answer) % (CHARGEPLAN_NO_PLAN + 1)]++;
}

/* Of the answers since the last look, an eighth are yes, and an eighth 10. */
static void check_both(const char *what, unsigned long models)
{
    check(models < 100 || (answers[CHARGEPLAN_YES] >= models / 8 && answers[CHARGEPLAN_NO_PLAN] >= models / 8), what);
    memset(answers, 0, sizeof answers);
}

/* Small levels; now and then wrong ones. */
static void random_levels(uint32_t *c, uint32_t *b)
{
    *b = below(40);
    *c = below(*b + 1);
    switch (below(64)) {
    case 0: *c = *b + 1 + below(2); break;
    case 1: *b = MOST + 1 + below(2); break;
    case 2: *b = UINT32_MAX - below(300); break;
    default: break;
    }
}

/* The words of a space; now and then too few. */
static size_t random_words(const struct model *m)
{
    size_t words = chargeplan_decide_words(m->n, m->k);

    return words > 0 && below(16) == 0 ? below((uint32_t)words) : words + below(4);
}

/* Small models, some of them unfit, with small levels and spaces, some of them wrong, against the plain decision. */
void test_random_decisions(unsigned long models)
{
    static const uint32_t numbers[] = {0, 1, 2, 3, 4, 5, 6, 8, 10};
    struct lists lists;
    unsigned long i;

    memset(&lists, 0, sizeof lists);
    memset(answers, 0, sizeof answers);
    for (i = 0; i < models; i++) {
        struct model m = random_model(&lists);
        size_t words = random_words(&m);
        uint32_t c, b;
        struct verdict v;
        uint64_t answer;

        random_levels(&c, &b);
        v = plain_decide(&m, c, b, words);
        answer = decide("random decision", &m, c, b, words, below(UINT16_MAX));
        check_answer("random decision", answer, v.number, v.detail);
        if (v.number % 10 == 0 && m.n * (b + 1) <= PLAIN_PAIRS_MOST)
            check((v.number == 0) == plain_has_plan(&m, c, b), "the two plain searches");
        count(answer);
    }
    for (i = 0; models >= 1000 && i < sizeof numbers / sizeof numbers[0]; i++)
        check(answers[numbers[i]] * 1000 >= models, "every number comes up among random decisions");
}

static uint32_t smaller(uint32_t x, uint32_t y)
{
    return x < y ? x : y;
}

/* A bound with up to so many pairs, of every size, small ones as often as great ones; and a credit, which is often small. */
static void random_bound(uint32_t n, uint32_t pairs, uint32_t *c, uint32_t *b)
{
    *b = below((smaller(pairs / n - 1, MOST) >> below(20)) + 1);
    *c = below(2) ? below(*b + 1) : smaller(below(20), *b);
}

/* A model of many modes and arcs, with draws and gains that are small, or up to a part of the bound, and few gains or many. */
static struct model random_decided_model(struct lists *lists, uint32_t pairs, uint32_t *c, uint32_t *b)
{
    struct model m = random_large_model(lists);

    random_bound(m.n, pairs, c, b);
    if (below(3))
        random_moves(lists, m.sources_length, smaller(*b / (1 + below(8)) + 1, CHARGEPLAN_DRAW_MOST),
            smaller(*b / (1 + below(64)) + 1, CHARGEPLAN_GAIN_MOST));
    return m;
}

/* Search with buffers as long as they must be. */
static uint64_t searched(const struct model *m, uint32_t c, uint32_t b)
{
    return search("random search", m, c, b, chargeplan_work_words(m->n, m->k, b), chargeplan_plan_bytes(m->n, m->k, b), 0x2fu);
}

/* "Inside the old ceilings it agrees with the search." Models too large for plain_has_plan. */
void test_random_decisions_and_searches(unsigned long models)
{
    struct lists lists;
    unsigned long i;

    memset(answers, 0, sizeof answers);
    for (i = 0; i < models; i++) {
        uint32_t c, b;
        struct model m = random_decided_model(&lists, CHARGEPLAN_PRODUCT_MOST, &c, &b);
        uint64_t answer = decide_exactly("decided and searched", &m, c, b);

        check(answer == chargeplan_number(searched(&m, c, b)), "decided and searched");
        count(answer);
    }
    check_both("decided and searched: models with a plan and without", models);
}

/* Models that search refuses by 6 or 7 among them, against the plain search. */
void test_random_decisions_of_many_pairs(unsigned long models)
{
    struct lists lists;
    unsigned long i;

    memset(answers, 0, sizeof answers);
    for (i = 0; i < models; i++) {
        uint32_t c, b;
        struct model m = i % 4 == 0 ? random_fit_model(&lists) : random_decided_model(&lists, PAIRS_MOST, &c, &b);
        uint64_t answer;

        if (i % 4 == 0)
            random_bound(m.n, PAIRS_MOST, &c, &b);
        answer = decide_exactly("many pairs", &m, c, b);
        check_answer("many pairs", answer, plain_has_plan_of_many_pairs(&m, c, b) ? CHARGEPLAN_YES : CHARGEPLAN_NO_PLAN, 0);
        count(answer);
    }
    check_both("many pairs: models with a plan and without", models);
}

/* With draws, gains, credit and bound all so many times as great, every charge is: the answer is the one of search to the small model. */
void test_random_scaled_decisions(unsigned long models)
{
    struct lists lists, to;
    unsigned long i;

    memset(answers, 0, sizeof answers);
    for (i = 0; i < models; i++) {
        struct model m = below(2) ? random_fit_model(&lists) : random_large_model(&lists), s;
        uint32_t c, b, times;
        uint64_t answer;

        random_bound(m.n, CHARGEPLAN_PRODUCT_MOST, &c, &b);
        times = 1 + below(smaller(CHARGEPLAN_GAIN_MOST / SMALL_MOVE_MOST, MOST / (b + 1)));
        s = scaled(&m, times, &to);
        answer = decide_exactly("scaled", &s, c * times, b * times);
        check(answer == chargeplan_number(searched(&m, c, b)), "random model scaled up, and decided");
        count(answer);
    }
    check_both("scaled: models with a plan and without", models);
}
