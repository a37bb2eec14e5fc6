#include "plan.h"

#include "advice.h"
#include "answers.h"

#include <inttypes.h>
#include <stdio.h>
#include <stdlib.h>

struct task task_of(const struct mission *m)
{
    struct task task = {model_of(m), m->numbers[CREDIT], m->numbers[BOUND], m->barred, {CHARGEPLAN_ALL_ON}, NULL, NULL};

    return task;
}

void print_ignored(const struct mission *m, const char *what)
{
    uint32_t j;

    for (j = 0; j <= COLOUR_BIT_MOST; j++)
        if ((m->barred >> j & 1) != 0 && j >= m->numbers[COLOURS])
            printf("ignored: barred colour %u, which the %s has not\n", (unsigned)j, what);
}

/* The longest word of a move, with its end. */
enum { MOVE = sizeof "-65535+65535" };

/* Writes the move of an arc as a mission has it. */
static void write_move(char word[MOVE], uint16_t draw, uint16_t gain)
{
    if (draw > 0 && gain > 0)
        snprintf(word, MOVE, "-%u+%u", (unsigned)draw, (unsigned)gain);
    else
        snprintf(word, MOVE, "%s%u", draw > 0 ? "-" : "", (unsigned)(draw > 0 ? draw : gain));
}

/* Prints a mode, in so many places: of a joined model those of the knee and of the habit. */
static void print_mode(const struct task *task, int width, uint32_t mode)
{
    if (task->knee == NULL)
        printf("mode %*u", width, (unsigned)mode);
    else
        printf("modes %*u, %*u", width, (unsigned)(mode / task->habit->n), width, (unsigned)(mode % task->habit->n));
}

/* Prints an arc by its number: of a joined model those of the knee and of the habit, and their action. */
static void print_arc(const struct task *task, uint8_t arc)
{
    struct chargeplan_pair pair;

    if (task->knee == NULL) {
        printf("  arc %3u", (unsigned)arc);
        return;
    }
    pair = chargeplan_model_pair(task->knee, task->habit, arc);
    printf("  knee %3u  habit %3u  action %2u", (unsigned)pair.knee, (unsigned)pair.habit, (unsigned)task->model.actions[arc]);
}

/* Prints an arc and its move. */
static void print_arc_and_move(const struct task *task, uint8_t arc)
{
    char move[MOVE];

    write_move(move, task->model.draws[arc], task->model.gains[arc]);
    print_arc(task, arc);
    printf("  move %6s", move);
}

/* Steps the gauge on an arc, and prints the arc, its move, the gauge and the step's spill. The answer is 0 where the step is refused. */
static int run_arc(const struct task *task, uint8_t arc, struct chargeplan_gauge *gauge)
{
    uint64_t before = gauge->spill;

    if (!is_yes("the gauge refuses", chargeplan_model_gauge_step(gauge, &task->model, task->b, arc)))
        return 0;
    print_arc_and_move(task, arc);
    printf("  ");
    print_mode(task, 2, gauge->mode);
    printf("  charge %4u  spill %4" PRIu64 "\n", (unsigned)gauge->charge, gauge->spill - before);
    return 1;
}

/*
 * Steps the gauge over some arcs of the plan; at the end prints the charge, and what they drew, gained and lost: the charge before and
 * the gains are the charge after, the draws and the spill. The answer is 0 where a step is refused.
 */
static int run_arcs(const struct task *task, const char *title, const uint8_t *arcs, uint32_t count, struct chargeplan_gauge *gauge)
{
    uint64_t at_first = gauge->spill, draws = 0, gains = 0;
    uint32_t i;

    printf("%s, %u %s, from charge %u\n", title, (unsigned)count, count == 1 ? "arc" : "arcs", (unsigned)gauge->charge);
    for (i = 0; i < count; i++) {
        if (!run_arc(task, arcs[i], gauge))
            return 0;
        draws += task->model.draws[arcs[i]];
        gains += task->model.gains[arcs[i]];
    }
    printf("  ends with charge %u; draws %" PRIu64 ", gains %" PRIu64 ", spill %" PRIu64 "\n", (unsigned)gauge->charge, draws, gains,
        gauge->spill - at_first);
    return 1;
}

/* The plan on the bench: its prefix and two rounds of its cycle. The answer is 0 where the gauge refuses. */
static int run_plan(const struct task *task, const uint8_t *plan, uint32_t p, uint32_t q)
{
    struct chargeplan_started started = chargeplan_model_gauge_start(&task->model, task->c, task->b);
    struct chargeplan_gauge *gauge = &started.gauge;

    if (!is_yes("the gauge does not start", started.answer) || !run_arcs(task, "prefix", plan, p, gauge)
        || !run_arcs(task, "first round", plan + p, q, gauge) || !run_arcs(task, "second round", plan + p, q, gauge))
        return 0;
    printf("spill in all: %" PRIu64 "\n", gauge->spill);
    return 1;
}

void print_colour(const struct task *task, uint32_t j)
{
    if (task->knee == NULL)
        printf("colour %u", (unsigned)j);
    else if (j < task->knee->k)
        printf("the knee's colour %u", (unsigned)j);
    else
        printf("the habit's colour %u", (unsigned)(j - task->knee->k));
}

int is_barred(const struct task *task, uint32_t j)
{
    return j < task->model.k && j <= COLOUR_BIT_MOST && (task->barred >> j & 1) != 0;
}

/*
 * The step, counted from 1, at which each colour is first met. A barred one may be met at none: the cycle does not meet it, and the prefix
 * is shorter than the allowance. The answer is 0 where the walk refuses.
 */
static int print_colours(const struct task *task, const uint8_t *plan, uint32_t p, uint32_t q)
{
    uint32_t j;

    for (j = 0; j < task->model.k; j++) {
        uint64_t answer = chargeplan_model_walk(&task->model, task->c, task->b, task->barred, p, q, plan, j, UINT16_MAX);

        if (!is_yes("the walk refuses", answer))
            return 0;
        print_colour(task, j);
        if (chargeplan_met(answer))
            printf(" is first met at step %u%s\n", (unsigned)chargeplan_steps(answer), is_barred(task, j) ? ", not in the cycle" : "");
        else if (is_barred(task, j))
            printf(" is never met\n");
        else
            printf(" is not met in %u steps\n", (unsigned)chargeplan_steps(answer));
    }
    return 1;
}

int print_barred(const struct task *task)
{
    const char *before = "barred from the cycle: ";
    uint32_t j;
    int any = 0;

    for (j = 0; j <= COLOUR_BIT_MOST; j++)
        if (is_barred(task, j)) {
            printf("%s", before);
            print_colour(task, j);
            before = ", ";
            any = 1;
        }
    if (any)
        printf("\n");
    return any;
}

/*
 * Tells what barring changes: searches with nothing barred, and judges that plan with the barred colours. All colours are met in its
 * cycle, so that judging refuses it by 24, at the first arc with a barred one.
 */
static void print_unbarred(const struct task *task, struct space *s)
{
    uint64_t answer = chargeplan_model_search(&task->model, task->c, task->b, 0, task->on, s->work, s->words, s->plan, s->bytes);
    uint32_t p = chargeplan_prefix(answer), q = chargeplan_cycle(answer);

    if (chargeplan_number(answer) == CHARGEPLAN_NO_PLAN)
        printf("with nothing barred: no plan exists\n");
    if (chargeplan_number(answer) != CHARGEPLAN_YES)
        return;
    printf("with nothing barred: prefix %u, cycle %u\n", (unsigned)p, (unsigned)q);
    answer = chargeplan_model_judge(&task->model, task->c, task->b, task->barred, p, q, s->plan);
    if (is_yes("judging refuses that plan", answer) || chargeplan_number(answer) != CHARGEPLAN_BARRED_COLOUR)
        return;
    print_arc_and_move(task, s->plan[chargeplan_detail(answer)]);
    printf("\n");
}

int lend_space(const struct task *task, struct space *s)
{
    /* Where the numbers are refused in any case, no buffer is needed: all sizes are 0. */
    s->words = chargeplan_work_words(task->model.n, task->model.k, task->b);
    s->bytes = chargeplan_plan_bytes(task->model.n, task->model.k, task->b);
    s->room = s->words > 0 && is_advice_asked_for() ? chargeplan_least_bound_words(task->model.n, task->model.k) : s->words;
    s->work = malloc(s->room * sizeof *s->work);
    s->plan = malloc(s->bytes);
    s->p = s->q = 0;
    if (s->words == 0 || (s->work != NULL && s->plan != NULL))
        return 1;
    fprintf(stderr, "no memory for %lu words and %lu bytes\n", (unsigned long)s->room, (unsigned long)s->bytes);
    return 0;
}

void free_space(struct space *s)
{
    free(s->work);
    free(s->plan);
}

int search_plan(const struct task *task, struct space *s)
{
    uint64_t answer =
        chargeplan_model_search(&task->model, task->c, task->b, task->barred, task->on, s->work, s->words, s->plan, s->bytes);

    s->p = s->q = 0;
    if (chargeplan_number(answer) == CHARGEPLAN_NO_PLAN) {
        printf("no plan exists for this %s with bound %u and credit %u\n", task->knee == NULL ? "model" : "knee and habit",
            (unsigned)task->b, (unsigned)task->c);
        if (is_advice_asked_for())
            print_advice(task, s);
        return NO_PLAN;
    }
    if (!is_yes("search refuses", answer))
        return REFUSED;
    s->p = chargeplan_prefix(answer);
    s->q = chargeplan_cycle(answer);
    printf("plan: prefix %u, cycle %u; from ", (unsigned)s->p, (unsigned)s->q);
    print_mode(task, 1, task->model.start);
    printf(" with charge %u\n", (unsigned)task->c);
    return PLAN;
}

/* Judges the plan found, and runs it. */
static int try_plan(const struct task *task, const struct space *s)
{
    if (!is_yes("judging refuses", chargeplan_model_judge(&task->model, task->c, task->b, task->barred, s->p, s->q, s->plan)))
        return REFUSED;
    printf("judged: feasible and accepted\n");
    /* A plan so judged is refused neither by the gauge nor by the walk. */
    return run_plan(task, s->plan, s->p, s->q) && print_colours(task, s->plan, s->p, s->q) ? PLAN : REFUSED;
}

int answer_task(const struct task *task)
{
    struct space space;
    int status = FAILED;

    if (lend_space(task, &space)) {
        if (print_barred(task))
            print_unbarred(task, &space);
        status = search_plan(task, &space);
        if (status == PLAN)
            status = try_plan(task, &space);
    }
    free_space(&space);
    return status;
}
