/*
 * The join of a knee and a habit, and plans of the two together, as plainly as Asks 5 and 6 of document 02 have them and with no code of
 * the library. The barred colours of knee and habit are those of each by its own numbers.
 */
#ifndef PLAIN_JOIN_H
#define PLAIN_JOIN_H

#include "plain.h"

/*
 * The join, where the shortest of the lists takes so many arcs: 1 to 5 of the knee, 1 to 5 of the habit, or 23; or number 0, and the joined
 * arcs are written, from place 0; else none is.
 */
struct reading plain_join(const struct model *knee, const struct model *habit, size_t room, struct arc arcs[FILLED_ARCS_MOST]);

/* A plan of the knee and a plan of the habit, both with a prefix of p arcs and a cycle of q. */
struct plans {
    uint32_t p, q;
    const uint8_t *knee, *habit;
};

/*
 * Whether both are plans, with the same actions, every step is possible on their common charge, and the cycle of each meets its required
 * colours and no barred one.
 */
int plain_together(const struct model *knee, const struct model *habit, uint32_t c, uint32_t b, struct plans plans);

/* The most triples of a mode of the knee, a mode of the habit and a charge that plain_has_plans takes, and the most arcs of a model. */
enum { PLAIN_TRIPLES_MOST = 64, PLAIN_TRIPLES_ARCS_MOST = 8 };

/* Whether there are such plans of any length, for fit models of few arcs with few triples, and right levels. */
int plain_has_plans(const struct model *knee, const struct model *habit, uint32_t c, uint32_t b);

#endif
