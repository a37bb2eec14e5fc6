/*
 * Judging, the existence of a plan, gauge, walk and ward, as plainly as document 01 and Asks 2 to 6, 9 and 11 of document 02 have them
 * and with no code of the library: what the C tests compare with. The join is in plain_join.h, the reach in plain_reach.h, the decision in
 * plain_decide.h, the least credit and the least bound in plain_least.h.
 */
#ifndef PLAIN_H
#define PLAIN_H

#include <stddef.h>
#include <stdint.h>

/* The switches of the arcs, four words. */
struct switches {
    uint64_t on[4];
};

/*
 * A model as a call is lent it: the six lists may be of unequal length, and null where they have none. Where there are weights, as
 * many as sources, the plain reading goes by them, as document 01 has it, and does not look at draws and gains. No call is lent them.
 * The barred colours are no part of a model, but are kept with it here: judging, search, the decision, the least credit, the least bound
 * and the walk are lent the byte, no other call is. Nor are the switches: search, the decision, the least credit, the least bound and a
 * fresh reach are lent them.
 */
struct model {
    uint32_t n, start, k;
    const uint8_t *sources;
    size_t sources_length;
    const uint8_t *targets;
    size_t targets_length;
    const uint16_t *draws;
    size_t draws_length;
    const uint16_t *gains;
    size_t gains_length;
    const uint8_t *colours;
    size_t colours_length;
    const uint8_t *actions;
    size_t actions_length;
    const int16_t *weights;
    uint8_t barred;
    struct switches switches;
};

/* An arc. */
struct arc {
    uint32_t source, target, draw, gain, colours, action;
};

/* The most arcs that a call which fills lists writes. */
enum { FILLED_ARCS_MOST = 255 };

/* What such a call answers: its number and detail, and zeros; or number 0 and the model's numbers. */
struct reading {
    uint32_t number;
    uint64_t detail;
    uint32_t n, start, k, m;
};

/* A number of document 01's table, 22 or 24, with its detail. */
struct verdict {
    uint32_t number, detail;
};

/* Whether an arc is on. */
int plain_is_on(struct switches s, size_t a);

/* Whether all these arcs are on. */
int plain_all_on(struct switches s, const uint8_t *arcs, size_t count);

/* 1 to 6; number 0 where none applies. */
struct verdict plain_fitness(const struct model *m, uint32_t c, uint32_t b);

/* Whether a barred colour of the model is among these, and whether every other one is. */
int plain_has_barred(const struct model *m, uint32_t colours);
int plain_has_required(const struct model *m, uint32_t colours);

/* 1 to 6, 11 to 16, 24 and 17; number 0 is yes. */
struct verdict plain_judge(const struct model *m, uint32_t c, uint32_t b, uint32_t p, uint32_t q, const uint8_t *plan, size_t length);

/* Where a walk stands: mode, charge, and the sum of what its steps lost at the bound; and n, the number of arcs and b of its start. */
struct gauge {
    uint8_t mode;
    uint16_t charge;
    uint64_t spill;
    uint8_t modes;
    uint8_t arcs;
    uint16_t bound;
};

/* 1 to 6 and a gauge of zeros; number 0 and a new gauge. */
struct verdict plain_start(struct gauge *g, const struct model *m, uint32_t c, uint32_t b);

/* 1 to 6, 22, 12, 13 and 15 and the gauge as it was; number 0 and the gauge moved on. */
struct verdict plain_step(struct gauge *g, const struct model *m, uint32_t b, uint32_t arc);

/* What comes of a walk: with number 0 the steps made, and 1 where the colour was met; else 0 and 0. */
struct outcome {
    struct verdict verdict;
    uint32_t steps, met;
};

/* 1 to 6, 11 to 16, 24, 17 and 18, or the steps of a plain gauge. */
struct outcome plain_walk(const struct model *m, uint32_t c, uint32_t b, uint32_t p, uint32_t q, const uint8_t *plan, size_t length,
    uint32_t j, uint16_t allowance);

/* A wearer of a ward, with a verdict that may be any byte before a call. */
struct wearer {
    uint32_t start, c, b;
    uint8_t verdict;
};

/* What a ward answers. */
struct warded {
    uint32_t number;
    uint64_t detail;
};

/*
 * 1, 3, 4 and 5 of the model, whose start mode is not looked at, and no verdict; else the verdicts, and the first that is not 0 with its
 * place.
 */
struct warded plain_ward(const struct model *m, struct wearer *wearers, size_t count, uint32_t p, uint32_t q, const uint8_t *plan,
    size_t length);

/* The arcs of a plan's prefix are any that are on; those of its cycle are on and have no barred colour. */
enum part { PREFIX, CYCLE };
int plain_may_stand(enum part part, const struct model *m, size_t a);

/*
 * The pair of a mode and a charge after an arc, or -1 where the arc does not leave the pair or is not possible there. The pair of mode s and
 * charge e has the number s * (b + 1) + e.
 */
int plain_pair_after(const struct model *m, uint32_t b, uint32_t pair, size_t a);

/* The most pairs of a mode and a charge that plain_has_plan takes: n * (b + 1). */
enum { PLAIN_PAIRS_MOST = 64 };

/* Whether a plan of any length, of arcs that are on, is feasible and accepted, for a fit model and right levels with few pairs. */
int plain_has_plan(const struct model *m, uint32_t c, uint32_t b);

#endif
