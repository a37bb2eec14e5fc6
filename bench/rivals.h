/*
 * Two other ways to tell whether there is a plan, to compare search and the decision with. They are given fit models with right levels,
 * and make no checks; they answer 0 or 10.
 */
#ifndef RIVALS_H
#define RIVALS_H

#include <stdint.h>

#include "chargeplan.h"

typedef uint64_t rival_entry(const struct chargeplan_model *m, uint32_t c, uint32_t b, uint8_t barred, const uint64_t *on);

/* Algorithm 1 of document 001, with its modified Bellman-Ford, Algorithm 2, on arcs that draw and then gain. */
rival_entry algorithm_1;

/*
 * A search over the configurations, a mode with a charge, first in, first out: one for the peaks, and then one from each peak, over levels,
 * for a way back to it. It keeps a mark for each configuration and no greatest charges; n * (b + 1) is at most 8,192.
 */
rival_entry search_configurations;

#endif
