/* Models from two texts: one in HOA, and the DIMACS text beside it. */
#ifndef PAIR_H
#define PAIR_H

#include "mission.h"

/* Whether a name is that of a HOA text. */
int is_hoa(const char *name);

/*
 * The mission of a HOA text, the DIMACS text beside it, and the words behind its name. The answer is an exit status: PLAN where it is read,
 * REFUSED where the planner refuses the texts, FAILED where a file or a word cannot be read, with the reason printed.
 */
int read_pair(const char *hoa, char **words, int count, struct mission *m);

#endif
