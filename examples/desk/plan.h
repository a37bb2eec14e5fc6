/* Planning: search, judging, and the plan on the bench. */
#ifndef PLAN_H
#define PLAN_H

#include "mission.h"

/*
 * What is planned: a model with its credit, bound and barred colours, the switches of its arcs and, where the model is joined, the knee and
 * the habit; else they are null.
 */
struct task {
    struct chargeplan_model model;
    uint32_t c, b;
    uint8_t barred;
    uint64_t on[CHARGEPLAN_ON_WORDS];
    const struct chargeplan_model *knee, *habit;
};

/* The task of a mission that is planned alone, with every arc on. */
struct task task_of(const struct mission *m);

/* Prints the barred colours that a model has not; what it is: "model", "knee" or "habit". The planner ignores them. */
void print_ignored(const struct mission *m, const char *what);

/* Whether the task's model has a colour and it is barred. */
int is_barred(const struct task *task, uint32_t j);

/* Prints a colour: of a joined model one of the knee or of the habit. */
void print_colour(const struct task *task, uint32_t j);

/* Prints the barred colours that the task's model has. The answer is whether there are any. */
int print_barred(const struct task *task);

/* The buffers that a search is lent, and p and q of the plan that it has found, 0 where it has found none. */
struct space {
    uint16_t *work;
    size_t words; /* that the search needs */
    size_t room;  /* that there are: advice needs them for bounds up to the largest */
    uint8_t *plan;
    size_t bytes;
    uint32_t p, q;
};

/*
 * Buffers as long as the task's search, and advice that is asked for, need; the answer is 0 where there is no memory, with the reason
 * printed.
 */
int lend_space(const struct task *task, struct space *space);

void free_space(struct space *space);

/*
 * Searches, and prints the plan's lengths and where it begins, that there is none, with advice where it is asked for, or the refusal. The
 * answer is an exit status.
 */
int search_plan(const struct task *task, struct space *space);

/* Searches, judges the plan and runs it on the bench, and tells what came of it. The answer is an exit status. */
int answer_task(const struct task *task);

#endif
