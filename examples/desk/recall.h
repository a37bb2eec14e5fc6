/* Service recalls: arcs switched off, and on again at a later visit. */
#ifndef RECALL_H
#define RECALL_H

#include "mission.h"

/* An arc switched on or off, at the visit of a line of the recall. */
struct switching {
    uint32_t arc;
    uint8_t on;
    unsigned line;
};

/* The switchings of a recall, in their order; those of one line are one visit. */
struct recall {
    struct switching *switchings;
    size_t count, room;
};

/* The recall of a file; the answer is 0 where it cannot be read, with the reason printed. It is freed in any case. */
int read_recall(const char *name, struct recall *r);

void free_recall(struct recall *r);

/*
 * Plans a mission with every arc on, and again after each visit of a recall, and tells what the recall changes. The answer is an exit
 * status, that of the last plan.
 */
int answer_recall(const struct mission *m, const struct recall *r);

#endif
