/*
 * The inputs of the benchmark: models with credit and bound, for judging a plan, for reading the texts of a model, for joining a knee with
 * a habit, for judging a plan for a ward, for the reach, and for the decision. An arc with a weight draws or gains; those of two kinds do
 * both.
 */
#ifndef INPUTS_H
#define INPUTS_H

#include <stdbool.h>
#include <stddef.h>
#include <stdint.h>

#include "chargeplan.h"

struct input {
    uint32_t n;
    uint32_t start;
    uint32_t k;
    size_t arcs;
    uint8_t sources[CHARGEPLAN_ARCS_MOST];
    uint8_t targets[CHARGEPLAN_ARCS_MOST];
    uint16_t draws[CHARGEPLAN_ARCS_MOST];
    uint16_t gains[CHARGEPLAN_ARCS_MOST];
    uint8_t colours[CHARGEPLAN_ARCS_MOST];
    uint8_t actions[CHARGEPLAN_ARCS_MOST]; /* 0 where the model is not to be joined */
    uint32_t c;
    uint32_t b;
    uint8_t barred; /* 0 but where a kind of input says so */
    uint64_t on[CHARGEPLAN_ON_WORDS]; /* every arc is on, but where a kind of input says so */
    uint32_t p;
    uint32_t q;
    uint8_t *plan; /* p + q arcs to be judged */
    char *hoa;     /* the two texts to be read, in buffers of TEXT_MOST bytes */
    char *dimacs;
    size_t hoa_length;
    size_t dimacs_length;
    struct input *habit; /* the model to be joined with this one */
    struct chargeplan_wearer *wearers; /* of a ward, in a list of WEARERS places */
    size_t wearers_length;             /* 0 where there is no ward */
    struct chargeplan_reach reach;     /* to be switched */
    uint32_t switched;                 /* the arc that is switched */
};

enum { TEXT_MOST = 1 << 20, WEARERS = 1000 };

/* Makes the random numbers come again from the first on: the same in every run, and to be called before an input is made. */
void restart_random(void);

/* The model of an input, in its own lists. */
struct chargeplan_model model_of_input(const struct input *in);

/* 64 modes, 255 arcs, k 4, b 127. Most arcs draw, and a colour is on one arc in 32, so that some models have a plan and some have none. */
void make_64_modes(struct input *in);

/* 8 modes, 64 arcs, k 4, b 1,023, in the same way. */
void make_8_modes(struct input *in);

/*
 * A chain of 64 modes, k 1, b 127, without a plan: each mode has a +1 loop, and an arc of weight -127 to the next mode that meets the
 * colour. That arc is on no cycle, so no cycle meets the colour. Each pass fills every later mode from 0 to 127, one entry at a time.
 */
void make_chain(struct input *in);

/*
 * Figure 6 of document 001 (example 4.2) with b 60, where two iterations of its algorithm do not suffice; with a plan. 62 modes, numbered
 * as there, 179 arcs, k 1. Mode 0 leads to mode 1 with a gain of b. Mode 1 leads to each mode i from 2 to b at a cost of b + 2 - i, to mode
 * b at a cost of 1. Mode i has a +1 loop, and leads to mode b + 1 at a cost of i - 1. Mode b + 1 leads back to mode 1 with weight 0, and
 * only this back-edge has the colour. From mode 1 with b the best way round goes by mode 2 and comes back with b - 1, too little for mode
 * 2, and so on: only the cycle by mode b keeps its charge, and search tries the modes 0 to b. The text of the example gives all weights but
 * those of the loops, which it calls positive: 1 here. It names no credit: 0 here, since the first arc fills the battery from any.
 */
void make_figure_6(struct input *in);

/*
 * A ring of 64 modes on which every peak is lost, 255 arcs, k 4, b 127, without a plan. The start is mode 1 with 127, and the arcs of the
 * ring from mode 1 to mode 63 have weight 0, so that each of these modes has the peak 127. Each has an arc of weight -127 to mode 0. Mode 0
 * has a +1 loop, a loop with the first three colours, and two arcs of weight -1 to mode 1, one with the fourth colour. The pass from a mode
 * from 1 on fails: the way back goes by mode 0 and ends with 126 at most. The pass from mode 0 fails: the fourth colour is met only on the
 * way to mode 1, and with 126 no arc leads back. Every other pass comes to mode 0 with 0 and then raises levels 1 to 4 of all modes, and
 * level 0 of the modes before its own, one entry at a time; each entry has four arcs to try, two of them -1 loops, which raise nothing. In
 * all these are 2.3 million entries, where 64 passes have room for 2.6 million, and 9.2 million tries.
 */
void make_ring(struct input *in);

/* One mode, 255 arcs of any weight, k 0, b 8,191, with a plan: few entries, so that checks and clearing count. */
void make_one_mode(struct input *in);

/* The same with k 4 and a colour on one arc in 2. */
void make_one_mode_colours(struct input *in);

/* One mode, 255 arcs, k 1, b 8,191, without a plan: no arc meets the colour, one gains 1 and the others draw. The charge climbs from 0. */
void make_one_mode_climb(struct input *in);

/*
 * Three kinds as make_64_modes, without a plan: with weights from -60 to 40, where most modes are reached, and one colour on no arc; with
 * weights from -100 to 3, where few are; and with weights from -20 to -1 and c 127, where most are, and every cycle loses.
 */
void make_missing(struct input *in);
void make_poor(struct input *in);
void make_losing(struct input *in);

/* 8 modes, 255 arcs with weights from -1,000 to 1,000, k 4, b 8,191, and p + q arcs that are possible, gains and draws in random order. */
void make_plan(struct input *in);

/* The same with weights from -8,191 to 8,191: many steps are cut off at the bound. */
void make_steep_plan(struct input *in);

/* The same with weights from -2 to 2 and b 4: steps below the bound, exactly to the bound and above it, in random order. */
void make_low_bound_plan(struct input *in);

/* As make_64_modes; each arc draws up to 100 and then gains up to 60. */
void make_64_modes_both(struct input *in);

/* As make_plan; each arc draws up to 1,000 and then gains up to 1,000. */
void make_plan_both(struct input *in);

/* As make_64_modes; colour 3 is barred. */
void make_64_modes_barred(struct input *in);

/* As make_plan; colour 3 is barred, and stands on no arc of the cycle, so that each is looked at for it. */
void make_plan_barred(struct input *in);

/* 64 modes, 255 arcs of any weight, k 4, a colour on one arc in 2, the arcs of one source together, the sources ascending. */
void make_model_with_texts(struct input *in);

/* The same with the sources descending. */
void make_descending_model(struct input *in);

/* Prints the texts of such a model, with so many comments of 64 bytes, and with the colours of an arc so many times. */
void print_texts(struct input *in, size_t comments, size_t times);

/*
 * A knee of 8 modes and 255 arcs with the actions 0 to 14, 17 arcs each, and a habit of 8 modes and 255 arcs, of which one has each of these
 * actions and the others have action 15: 65,025 pairs to be looked at, of which 255 have equal actions.
 */
void make_large_join(struct input *in);

/* A knee of 4 modes and 12 arcs with the actions 0 to 3, 3 arcs each, and a habit of 3 modes and 4 arcs, one of each action: 12 pairs. */
void make_small_join(struct input *in);

/* As make_plan, and 1,000 wearers with this bound and any credit from this one up, who can all have the plan. */
void make_ward(struct input *in);

/* The same with a bound below the credit: each wearer has 6, which is looked at once the model is checked. */
void make_ward_of_sixes(struct input *in);

/* As make_64_modes; one arc in four is off. */
void make_64_modes_off(struct input *in);

/*
 * For the reach: 64 modes, 255 arcs with weights from -60 to 40, b 127. Every arc has the one colour, which is barred, so that no arc may
 * stand in a cycle: a search of the model makes the pass for the peaks, and of each mode a pass that ends with its first entry.
 */
void make_reach(struct input *in);

/* The same with the chain of make_chain, and with the ring of make_ring. */
void make_reach_chain(struct input *in);
void make_reach_ring(struct input *in);

/*
 * The three with b 8,191, which search does not take. In the chain and in the ring the arcs that draw all the charge draw 8,191; the other
 * draws and gains are the same, so that a charge that rises by one at a time has 64 times as far to go.
 */
void make_far_reach(struct input *in);
void make_far_reach_chain(struct input *in);
void make_far_reach_ring(struct input *in);

/* As make_reach and make_far_reach, and a fresh reach of every arc on, of which one that is on is switched off. */
void make_switching(struct input *in);
void make_far_switching(struct input *in);

/*
 * For the decision, with the bound that the input has, from 60 up to 1,000,000. As make_64_modes, make_missing and make_losing, with the same
 * weights: the greater the bound, the farther a charge has to rise.
 */
void make_decided(struct input *in);
void make_decided_missing(struct input *in);
void make_decided_losing(struct input *in);

/*
 * As make_chain, make_figure_6 and make_one_mode_climb, with draws up to the bound, but not above 10,000. The loops still gain 1. In the
 * figure all but these are spread over the bound; where it is above 10,000 the first way round keeps its charge.
 */
void make_decided_chain(struct input *in);
void make_decided_figure_6(struct input *in);
void make_decided_climb(struct input *in);

/* A ring of 64 modes that gains 1 with each round, k 4, with a plan: each arc gains 1, but for the last, which draws 62. */
void make_decided_ring(struct input *in);

/* 64 modes in a row, k 1, without a plan: the set of peaks loses one with each time round. */
void make_decided_row(struct input *in);

#endif
