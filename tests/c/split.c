/*
 * A move that draws and then gains is two moves by way of a mode of its own: the first draws, the second gains. So a random model and
 * the one whose arcs are split, in which no arc has both parts, get the same answers.
 */
#include "calls.h"

/* Arc a becomes the arcs 2 * a, to mode n + a, and 2 * a + 1, which has the colours. */
static struct model split(const struct model *m, struct lists *to)
{
    uint32_t arcs = (uint32_t)m->sources_length, a;
    struct model r = listed(m->n + arcs, m->k, to, 2 * arcs);

    r.start = m->start;
    r.barred = m->barred;
    for (a = 0; a < arcs; a++) {
        struct arc drawn = {m->sources[a], m->n + a, m->draws[a], 0, 0, m->actions[a]};
        struct arc gained = {m->n + a, m->targets[a], 0, m->gains[a], m->colours[a], 0};

        put(to, 2 * a, drawn);
        put(to, 2 * a + 1, gained);
        /* One half that is off withdraws both. */
        if (!plain_is_on(m->switches, a))
            r.switches = with_off(r.switches, 2 * a + below(2));
    }
    return r;
}

/* The longest plan that is split. */
enum { LONGEST = 12 };

static void split_plan(const uint8_t *plan, size_t length, uint8_t *to)
{
    size_t i;

    for (i = 0; i < length; i++) {
        to[2 * i] = (uint8_t)(2 * plan[i]);
        to[2 * i + 1] = (uint8_t)(2 * plan[i] + 1);
    }
}

/* What judging says of the split plan: a position or step is doubled, a colour is not. A barred colour is in the second half. */
static struct verdict split_verdict(uint64_t answer)
{
    struct verdict v = {chargeplan_number(answer), chargeplan_detail(answer)};

    if (v.number != CHARGEPLAN_MISSING_COLOUR)
        v.detail = 2 * v.detail + (v.number == CHARGEPLAN_BARRED_COLOUR);
    return v;
}

/* A random plan judged and walked, and the same split. */
static void split_judged(const struct model *m, const struct model *s, uint32_t c, uint32_t b)
{
    uint8_t plan[LONGEST], twice[2 * LONGEST];
    size_t length = m->sources_length == 0 ? 0 : random_plan(m, plan, LONGEST);
    uint32_t p = length == 0 ? 0 : below((uint32_t)length), q = (uint32_t)length - p, j = below(m->k + 1);
    uint16_t allowance = (uint16_t)below(2 * LONGEST);
    struct verdict v = split_verdict(judge("a plan to be split", m, c, b, p, q, plan, length));
    uint64_t walked_to = walk("a plan to be split", m, c, b, p, q, plan, length, j, allowance);
    struct outcome o = {split_verdict(walked_to), 2 * chargeplan_steps(walked_to), chargeplan_met(walked_to)};

    split_plan(plan, length, twice);
    check_answer("a plan split", judge("a plan split", s, c, b, 2 * p, 2 * q, twice, 2 * length), v.number, v.detail);
    check_outcome("a walk split", walk("a walk split", s, c, b, 2 * p, 2 * q, twice, 2 * length, j, (uint16_t)(2 * allowance)), o);
}

/* The split gauge makes both halves of a step that the gauge makes, and not the first of one that is refused. */
static void split_step(struct gauge *halves, const struct model *s, uint32_t b, uint32_t arc, uint64_t answer)
{
    check_answer("the first half", step_gauge("the first half", halves, s, b, 2 * arc), chargeplan_number(answer), 0);
    if (chargeplan_number(answer) == CHARGEPLAN_YES)
        check_answer("the second half", step_gauge("the second half", halves, s, b, 2 * arc + 1), CHARGEPLAN_YES, 0);
}

/* Random steps: mode, charge and spill are the same after each. */
static void split_gauged(const struct model *m, const struct model *s, uint32_t c, uint32_t b)
{
    struct gauge g, halves;
    unsigned steps;

    check_answer("a gauge to be split", start_gauge("a gauge to be split", &g, m, c, b), CHARGEPLAN_YES, 0);
    check_answer("a gauge split", start_gauge("a gauge split", &halves, s, c, b), CHARGEPLAN_YES, 0);
    for (steps = 0; steps < LONGEST; steps++) {
        uint32_t arc = random_arc(m, g.mode);

        split_step(&halves, s, b, arc, step_gauge("a gauge to be split", &g, m, b, arc));
        check_gauge("a gauge split", halves, gauge_at(s, b, g.mode, g.charge, g.spill));
    }
}

/* There is a plan for both or for neither. */
static void split_searched(const struct model *m, const struct model *s, uint32_t c, uint32_t b)
{
    uint32_t number = chargeplan_number(search_exactly("a model to be split", m, c, b, NULL));

    check(number == chargeplan_number(search_exactly("a model split", s, c, b, NULL)), "a model split");
}

void test_random_split(unsigned long models)
{
    struct lists lists, halves;
    unsigned long i;

    for (i = 0; i < models; i++) {
        struct model m = random_fit_model(&lists), s = split(&m, &halves);
        uint32_t b = below(16), c = below(b + 1);

        split_judged(&m, &s, c, b);
        split_gauged(&m, &s, c, b);
        split_searched(&m, &s, c, b);
    }
}
