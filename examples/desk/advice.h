/* Advice for a fitter whose mission has no plan. */
#ifndef ADVICE_H
#define ADVICE_H

#include "plan.h"

/* Asks for advice, wherever a task has no plan. */
void ask_for_advice(void);

/* Whether it is asked for. */
int is_advice_asked_for(void);

/*
 * Prints what would do for a task that has no plan, all else as it is: the least bound and the least credit with which it has one, and each
 * duty without which it has one. The task's search has answered that there is no plan, with this space, whose plan is overwritten.
 */
void print_advice(const struct task *task, struct space *space);

#endif
