/* What search, the least credit and the least bound take from closing.c. */
#ifndef CLOSING_H
#define CLOSING_H

#include "model.h"

/* The first mode whose peak a cycle keeps, and this peak; the number of modes where there is none, and so no plan. */
uint32_t PASTE(REFERENCE, _first_kept)(const struct model *m, const struct groups *groups, int32_t *peak);

/* Whether there is a plan. */
bool PASTE(REFERENCE, _has_plan)(const struct model *m, const struct groups *groups);

#endif
