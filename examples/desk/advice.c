#include "advice.h"

#include "answers.h"

#include <stdio.h>

/* Set once, from the arguments. */
static int asked_for;

void ask_for_advice(void)
{
    asked_for = 1;
}

int is_advice_asked_for(void)
{
    return asked_for;
}

/* Prints the least bound, or the largest that was tried. Neither call is refused: search has answered for this model. */
static void print_least_bound(const struct task *task, struct space *s)
{
    uint32_t n = task->model.n;
    uint64_t answer = chargeplan_model_least_bound(&task->model, task->c, task->barred, task->on, s->work, s->room);

    if (chargeplan_number(answer) == CHARGEPLAN_NO_PLAN)
        printf("  battery: none up to bound %u, the largest that the planner takes for %u %s\n",
            (unsigned)chargeplan_largest_bound(n), (unsigned)n, n == 1 ? "mode" : "modes");
    else if (is_yes("  the least bound is refused", answer))
        printf("  battery: a bound of at least %u\n", (unsigned)chargeplan_value(answer));
}

/* Prints the least credit, or the largest that was tried, which is the bound. */
static void print_least_credit(const struct task *task, struct space *s)
{
    uint64_t answer = chargeplan_model_least_credit(&task->model, task->b, task->barred, task->on, s->work, s->words);

    if (chargeplan_number(answer) == CHARGEPLAN_NO_PLAN)
        printf("  charge on arrival: none up to credit %u\n", (unsigned)task->b);
    else if (is_yes("  the least credit is refused", answer))
        printf("  charge on arrival: a credit of at least %u\n", (unsigned)chargeplan_value(answer));
}

/* A byte of colours without one of them; those behind it move down by one. */
static uint8_t without_colour(uint8_t colours, uint32_t j)
{
    unsigned before = colours & ((1u << j) - 1), behind = (unsigned)colours >> (j + 1);

    return (uint8_t)(before | behind << j);
}

/* Whether there is a plan with a colour left out of the model, so that it is neither required nor barred. */
static int has_plan_without(const struct task *task, struct space *s, uint32_t j)
{
    struct chargeplan_model model = task->model;
    uint8_t colours[CHARGEPLAN_ARCS_MOST];
    uint64_t answer;
    size_t arc;

    for (arc = 0; arc < model.arcs; arc++)
        colours[arc] = without_colour(model.colours[arc], j);
    model.colours = colours;
    model.k--;
    answer = chargeplan_model_search(&model, task->c, task->b, without_colour(task->barred, j), task->on, s->work, s->words, s->plan,
        s->bytes);
    return chargeplan_number(answer) == CHARGEPLAN_YES;
}

/* Prints each required colour without which there is a plan, by its number in the model as it is. */
static void print_duties(const struct task *task, struct space *s)
{
    const char *before = " ";
    uint32_t required = 0, found = 0, j;

    printf("  one duty dropped:");
    for (j = 0; j < task->model.k; j++) {
        if (is_barred(task, j))
            continue;
        required++;
        if (!has_plan_without(task, s, j))
            continue;
        printf("%s", before);
        print_colour(task, j);
        before = ", ";
        found++;
    }
    printf("%s\n", found > 0 ? "" : required > 0 ? " none" : " no colour is required");
}

void print_advice(const struct task *task, struct space *s)
{
    printf("what would do, all else as it is:\n");
    print_least_bound(task, s);
    print_least_credit(task, s);
    print_duties(task, s);
}
