/* The decision, as plainly as Ask 12 of document 02 has it and with no code of the library: what the C tests compare with. */
#ifndef PLAIN_DECIDE_H
#define PLAIN_DECIDE_H

#include "plain.h"

/* Whether a plan of any length, of arcs that are on, is feasible and accepted, for a fit model with up to PAIRS_MOST pairs. */
int plain_has_plan_of_many_pairs(const struct model *m, uint32_t c, uint32_t b);

/* 1 to 6 and 8, with a working space of so many words, and 10; number 0 is yes. */
struct verdict plain_decide(const struct model *m, uint32_t c, uint32_t b, size_t words);

#endif
