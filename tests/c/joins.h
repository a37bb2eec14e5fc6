/* The join, called by the C tests. */
#ifndef JOINS_H
#define JOINS_H

#include "plain_join.h"
#include "rooms.h"

/*
 * The join, compared with the plain join: the answer, the lists of these lengths, in which only the places of joined arcs may change, and
 * the lists of knee and habit, which are as they were. It is done twice, with other junk in lists elsewhere. The joined arcs are copied to
 * `to`, unless that is null.
 */
struct reading join_models(const char *what, const struct model *knee, const struct model *habit, struct rooms rooms, struct lists *to);

/* The join into lists as long as they need be is refused by this number and detail, or is not where the number is 0. */
void joined_as(const char *what, const struct model *knee, const struct model *habit, uint32_t number, uint64_t detail);

/* The joined model of an answer and the lists that were filled with it. */
struct model joined_model(struct reading r, const struct lists *lists);

/* A model with lists of one length, as the header has it, with these lists. */
struct chargeplan_model as_one(const struct model *m);

/* How many pairs of arcs have equal actions; lists of unequal lengths count as far as the actions go. */
size_t equal_actions(const struct model *knee, const struct model *habit);

/* One mode without colours, and so many arcs in these lists that change nothing, with this action. */
struct model with_action(struct lists *to, size_t arcs, uint32_t action);

/* Gives the first arcs of the lists random actions below so many. */
void random_actions(struct lists *lists, size_t arcs, uint32_t count);

#endif
