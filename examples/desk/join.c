#include "join.h"

#include "answers.h"
#include "plan.h"

#include <stdio.h>

/* The barred colours of a knee and a habit that can be joined, as the joined model has them: the habit's come behind the knee's. */
static uint8_t joined_barred(const struct mission *m, const struct mission *h)
{
    uint32_t k = m->numbers[COLOURS];

    return (uint8_t)((m->barred & ((1u << k) - 1)) | (unsigned)h->barred << k);
}

/* What two fit models would have together, so that the fitter sees which size 23 refuses. */
static void print_together(const struct chargeplan_model *knee, const struct chargeplan_model *habit)
{
    unsigned arcs = 0, draw = 0, gain = 0;
    size_t i, j;

    for (i = 0; i < knee->arcs; i++)
        for (j = 0; j < habit->arcs; j++) {
            unsigned drawn = (unsigned)knee->draws[i] + habit->draws[j], gained = (unsigned)knee->gains[i] + habit->gains[j];

            if (knee->actions[i] != habit->actions[j])
                continue;
            arcs++;
            draw = drawn > draw ? drawn : draw;
            gain = gained > gain ? gained : gain;
        }
    printf("together: modes %u, arcs %u, colours %u, draws up to %u, gains up to %u\n", (unsigned)(knee->n * habit->n), arcs,
        (unsigned)(knee->k + habit->k), draw, gain);
}

/* Whether 1 to 5 do not refuse a model: with credit and bound 0, a gauge of it is refused by nothing else. */
static int is_fit(const struct chargeplan_model *model)
{
    return chargeplan_number(chargeplan_model_gauge_start(model, 0, 0).answer) == CHARGEPLAN_YES;
}

/* Prints a refused join. The answer does not tell whose 1 to 5 are; the knee is looked at first, so they are the habit's if it is fit. */
static void print_unjoined(const struct chargeplan_reading *reading, const struct chargeplan_model *knee,
    const struct chargeplan_model *habit)
{
    if (reading->number == CHARGEPLAN_JOIN_SIZE) {
        print_refusal("the join refuses", reading->number, reading->detail);
        print_together(knee, habit);
    } else {
        print_refusal(is_fit(knee) ? "the join refuses the habit" : "the join refuses the knee", reading->number, reading->detail);
    }
}

int answer_joined(const struct mission *m, const struct mission *h)
{
    struct mission joined; /* its lists alone are used */
    struct chargeplan_lists lists = {
        joined.sources, joined.targets, joined.draws, joined.gains, joined.met, joined.actions, CHARGEPLAN_ARCS_MOST};
    struct chargeplan_model knee = model_of(m), habit = model_of(h), model;
    struct chargeplan_reading reading = chargeplan_model_join(&model, &lists, &knee, &habit);
    struct task task = {model, m->numbers[CREDIT], m->numbers[BOUND], 0, {CHARGEPLAN_ALL_ON}, &knee, &habit};

    if (reading.number != CHARGEPLAN_YES) {
        print_unjoined(&reading, &knee, &habit);
        return REFUSED;
    }
    printf("joined: modes %u, colours %u, arcs %u\n", (unsigned)reading.n, (unsigned)reading.k, (unsigned)reading.m);
    print_ignored(m, "knee");
    print_ignored(h, "habit");
    task.barred = joined_barred(m, h);
    return answer_task(&task);
}
