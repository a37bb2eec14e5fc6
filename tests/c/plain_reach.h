/* The reach, as plainly as Ask 9 of document 02 has it and with no code of the library: what the C tests compare with. */
#ifndef PLAIN_REACH_H
#define PLAIN_REACH_H

#include "plain.h"

/* The most pairs of a mode and a charge, n * (b + 1), for which there is space. */
enum { PAIRS_MOST = 1 << 21 };

/* The arcs that leave each mode and may stand in this part of a plan. */
struct leaving {
    uint8_t arcs[255];
    size_t count;
};
void plain_find_leaving(const struct model *m, enum part part, struct leaving *of_mode);

/* For each pair whether a walk of arcs that are on leads to it, from the start mode with charge c; of a fit model, until the next call. */
const uint8_t *plain_reached_pairs(const struct model *m, uint32_t c, uint32_t b);

/* The places of a reach, and the charge of a mode that is not reached. */
enum { REACH_PLACES = 64, PLAIN_UNREACHED = 65535 };

/* The switches, and the greatest charge with which each mode is reached. */
struct reach {
    struct switches switches;
    uint16_t charges[REACH_PLACES];
};

/* 1 to 6, and every mode is unreached; number 0 and the charges over arcs that are on. The switches are the model's in any case. */
struct verdict plain_reach_start(struct reach *r, const struct model *m, uint32_t c, uint32_t b);

/*
 * 1 to 6 and 12, and the reach as it was; number 0 and the reach with the arc switched, as it was where the arc was so already. The model's
 * own switches are not looked at.
 */
struct verdict plain_reach_switch(struct reach *r, const struct model *m, uint32_t c, uint32_t b, uint32_t arc, uint8_t on);

#endif
