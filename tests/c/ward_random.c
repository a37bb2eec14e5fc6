/* The ward: random models, plans and wearers, small and large, fit and unfit. */
#include "wards.h"

#include <string.h>

/* The most wearers of a random ward, and the longest plan. */
enum { WEARERS_MOST = 12, PLAN_MOST = (CHARGEPLAN_COLOURS_MOST + 2) * PLAIN_PAIRS_MOST };

/* How many random wards were answered by each number, up to 24, and how many verdicts there were of each. */
static unsigned long answers[CHARGEPLAN_BARRED_COLOUR + 1], verdicts[CHARGEPLAN_BARRED_COLOUR + 1];

/* A number up to most; now and then one of any size. */
static uint32_t of_any_size(uint32_t most)
{
    uint32_t number = below(most + 1);

    switch (below(64)) {
    case 0: return UINT32_MAX - below(3);
    case 1: return number + 65536;
    case 2: return number + 256;
    case 3: return number + most + 1;
    default: return number;
    }
}

/* A wearer near one with these levels: in the model's start mode, most of the time, with levels up to twice as great. */
static struct wearer random_wearer(const struct model *m, uint32_t c, uint32_t b)
{
    struct wearer w = {m->start, c, b, 0};

    if (below(4) == 0)
        w.start = of_any_size(m->n);
    if (below(2))
        w.b = of_any_size(2 * b);
    if (below(2))
        w.c = of_any_size(w.b < CHARGEPLAN_BOUND_MOST ? w.b : b);
    return w;
}

/* Of two plans one that search finds, where there are few pairs and it finds one; else any with few arcs. The plan is in `bytes`. */
static struct plan random_ward_plan(const struct model *m, uint32_t c, uint32_t b, uint8_t *bytes)
{
    struct plan plan = {0, 0, bytes, 0};
    uint64_t answer = CHARGEPLAN_NO_PLAN;

    if (m->n * (b + 1) <= PLAIN_PAIRS_MOST && below(2))
        answer = search_exactly("a plan for a random ward", m, c, b, bytes);
    if (chargeplan_number(answer) == CHARGEPLAN_YES) {
        plan.p = chargeplan_prefix(answer);
        plan.q = chargeplan_cycle(answer);
        plan.length = (size_t)plan.p + plan.q;
        return plan;
    }
    plan.length = m->sources_length == 0 ? 0 : random_plan(m, bytes, 12);
    plan.p = plan.length == 0 ? 0 : below((uint32_t)plan.length);
    plan.q = (uint32_t)plan.length - plan.p + (below(20) == 0);
    return plan;
}

/* A ward of wearers near these levels. */
static void random_ward(const struct model *m, uint32_t c, uint32_t b)
{
    static const char what[] = "random ward";
    uint8_t bytes[PLAN_MOST];
    struct plan plan = random_ward_plan(m, c, b, bytes);
    struct wearer wearers[WEARERS_MOST];
    size_t count = below(WEARERS_MOST + 1), i;
    struct warded answer;

    for (i = 0; i < count; i++)
        wearers[i] = random_wearer(m, c, b);
    answer = ward(what, m, wearers, count, plan);
    check(answer.number <= CHARGEPLAN_BARRED_COLOUR, what);
    if (answer.number > CHARGEPLAN_BARRED_COLOUR)
        return;
    answers[answer.number]++;
    for (i = 0; i < count && !is_of_model(answer.number); i++)
        verdicts[wearers[i].verdict]++;
}

/* Small models. Every number has come up as an answer, and as a verdict where it is one, where there were wards enough for it. */
void test_random_wards(unsigned long models)
{
    static const uint32_t of_model[] = {0, 1, 3, 4, 5}, of_wearer[] = {0, 2, 6, 11, 12, 13, 14, 15, 16, 24, 17};
    struct lists lists;
    unsigned long i;

    memset(answers, 0, sizeof answers);
    memset(verdicts, 0, sizeof verdicts);
    memset(&lists, 0, sizeof lists);
    for (i = 0; i < models; i++) {
        struct model m = random_model(&lists);
        uint32_t b = below(PLAIN_PAIRS_MOST / 4);

        random_ward(&m, below(b + 1), b);
    }
    for (i = 0; models >= 1000 && i < sizeof of_model / sizeof of_model[0]; i++)
        check(answers[of_model[i]] * 1000 >= models, "every number of a model comes up among random wards");
    for (i = 0; models >= 1000 && i < sizeof of_wearer / sizeof of_wearer[0]; i++)
        check(answers[of_wearer[i]] * 2000 >= models && verdicts[of_wearer[i]] * 500 >= models,
            "every number of a wearer comes up among random wards");
}

/* Models with many arcs, with levels of few pairs and of every size. */
void test_random_large_wards(unsigned long models)
{
    struct lists lists;
    unsigned long i;

    for (i = 0; i < models; i++) {
        struct model m = random_large_model(&lists);
        uint32_t b = below(PLAIN_PAIRS_MOST / m.n);

        random_ward(&m, below(b + 1), b);
        random_moves(&lists, m.sources_length, CHARGEPLAN_DRAW_MOST, CHARGEPLAN_GAIN_MOST);
        b = below(CHARGEPLAN_BOUND_MOST + 1);
        random_ward(&m, below(b + 1), b);
    }
}
