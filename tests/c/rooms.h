/* Lists lent to be filled, by reading and by the join: of any lengths, each in a block of its own, with junk in all places. */
#ifndef ROOMS_H
#define ROOMS_H

#include "calls.h"

/* The lengths of the lists, in the order of a call's arguments. */
struct rooms {
    size_t of[MODEL_LISTS];
};

struct rooms equal_rooms(size_t room);

/* Random lengths, most of them long enough for so many arcs. */
struct rooms random_rooms(size_t arcs);

/* How many arcs they take: the length of the shortest. */
size_t shortest(const struct rooms *r);

/* Lists of these lengths, with so many places before and behind each, and junk in all places. */
struct lent lend_rooms(const struct rooms *r, size_t gap, int junk);

/* Such lists, and all their places, as a model. */
struct model whole_lists(struct lent l, const struct rooms *r, size_t gap);

/* Writes arcs into such lists, from the first place behind the gap. What they cannot hold is cut off. */
void write_arcs(struct lent l, size_t gap, const struct arc *arcs, size_t count);

void free_lists(struct lent l);

/* A call's answer is as expected; else both are printed. */
int check_filled(const char *what, struct reading r, struct reading expected);

#endif
