/*
 * chargeplan.h: judging, searching and walking charge plans for a knee joint, deciding whether there is one, telling the least credit and
 * the least bound with which there is one, reading its model from texts, joining it with the habit of its wearer, judging one plan for a
 * ward of wearers, and switching its moves off and on again, from C99 or C++ on Linux for 64-bit x86 with the instructions of x86-64-v2
 * (System V calls).
 *
 * Link with crates/desk/out/libdesk.a, which `rt lib`, called in crates/desk, writes once the code is proved. There is no set-up, no
 * state between calls and no heap: calls on different buffers may run at the same time, and no input traps or hangs a call.
 *
 * THE MODEL. n modes, numbered from 0; a start mode; k colours (duties), numbered from 0; and arcs (moves), numbered from 0 in
 * the order given. Arc a leaves mode sources[a], enters mode targets[a], has the draw draws[a] and the gain gains[a], meets colour j
 * where bit j of colours[a] is set, and has the action actions[a].
 *   n        1 to 64
 *   start    0 to n - 1
 *   k        0 to 4
 *   arcs     0 to 255: six lists of one length
 *   draw     0 to 10,000: what the arc takes from the charge
 *   gain     0 to 10,000: what it then adds
 *   action   0 to 15: by it the join pairs arcs (below); no other call looks at it, but to refuse one above 15
 *   b        the bound (battery size), 0 to 8,191; for the decision 0 to 1,000,000
 *   c        the credit (charge on arrival), 0 to b
 * Draws, gains, b and c are in the same whole units. Draw first, then gain: a step is possible where the charge is at least the arc's
 * draw, however much the arc gains. It then takes charge e to the smaller of e - draw + gain and b. What e - draw + gain has above b
 * is lost: it is the step's spill.
 *
 * THE PLAN. Arc numbers, a byte each: p of them are the prefix (run-in) and then q, at least 1, the cycle (round), which is
 * repeated for ever. It begins in the start mode with charge c, each arc leaves the mode that the one before entered, and the
 * cycle ends in the mode where it began. It is feasible where every step is possible in any number of rounds, and accepted
 * where each required colour stands on some arc of the cycle and no barred colour stands on any.
 *
 * BARRED COLOURS. A duty may have to die out: it may be met in the prefix, and never again in the cycle. Judging, search, the decision, the
 * least credit, the least bound, the walk and the ward take a byte `barred` that names such colours: of the k colours, j is barred where bit
 * j is set, and required where it is not. Bits at or above k are ignored, so that no byte is refused. The prefix is free: an arc with a
 * barred colour may stand there, and need not. With barred 0 each of the k colours is required; with all of them barred any cycle without
 * colours is accepted.
 *
 * THE SWITCHES. A service recall switches single arcs off, and a later visit switches them on again. The switches are four words of 64
 * bits: arc a is on where bit a mod 64 of word a / 64, rounded down, is set, and off where it is not. Bits at or above the number of arcs
 * are ignored. Search, the decision, the least credit and the least bound use only arcs that are on, in the prefix and in the cycle.
 * Judging, the gauge, the walk and the ward know every arc and take no switches: a plan with an arc that is off is judged as it was before
 * the recall.
 *
 * THE DECISION. A test rig counts the charge finer than a knee does, with a bound of up to 1,000,000. For such a battery, and for any
 * smaller one, the decision tells whether there is a plan, of any length and of arcs that are on, that is feasible and accepted; it makes
 * none. Its time and its working space do not grow with the bound. Where search takes the model, both give the same verdict.
 *
 * THE LEAST CREDIT AND THE LEAST BOUND. Purchasing asks with how little charge on arrival a knee can be planned, and with how small a
 * battery. For a given bound, the least credit is the least c, up to b, with which there is a plan, of arcs that are on; for a given credit,
 * the least bound is the least b, not below c and with n * (b + 1) at most 8,192, with which there is one. With each smaller number that
 * may be tried there is none, and with each larger one there is one, too. Neither call makes a plan: search does, with the number found.
 *
 * THE REACH. A reach has the switches and, for each mode, the greatest charge with which the mode can be reached over arcs that are on, by
 * walks of any length, the start mode by no arc with c; CHARGEPLAN_UNREACHED where it cannot be reached. A fresh reach is made from the
 * switches of all arcs; from it arcs are switched one by one, and after each switching the charges are those of a fresh reach with the arcs
 * then on. The reach remembers neither the model nor c and b: they are given anew with each switching, and the charges are theirs. The
 * switches of a reach go into search as they are.
 *
 * THE TEXTS. A model can be read from two texts: one in HOA, version 1, and one in the DIMACS shortest-path form. Their lines, in this
 * order, are
 *   HOA: v1                                    c..         any lines that begin with c
 *   States: N                                  p sp N M    the numbers of modes and of arcs
 *   Start: START                               a U V W     M times: modes counted from 1, and the arc's weight
 *   AP: 0
 *   Acceptance: K Inf(0)&Inf(1)&..             to Inf(K-1), or: Acceptance: 0 t
 *   --BODY--
 *   State: MODE                                at most once for each mode, in any order, and behind it the mode's arcs:
 *   [t] TARGET {COLOUR COLOUR..}               or [t] TARGET {} or [t] TARGET; a colour may be repeated
 *   --END--
 * A line feed ends every line, the last one too; one blank stands between fields, and none elsewhere. A number has one to nine digits,
 * zeros in front among them; a minus may stand before W alone. MODE and TARGET are below N, U and V from 1 to N, a COLOUR is below K.
 * The i-th line [t] and the i-th line a are arc i, both counted from 0: the first has its source (of the line State before it),
 * target and colours, the second source and target again and its weight. A negative weight W is a draw of -W, any other a gain of W.
 * The action of every arc is 0.
 *
 * THE JOIN. The wearer's habit is a second model. Its arcs say by their actions what the wearer may do next; they may draw and gain
 * too, and meet colours, the duties of the wearer. The joined model of a knee and a habit is both at once: a step is an arc of the
 * knee and an arc of the habit with the same action. Where the knee has n1 modes and k1 colours, and the habit n2 and k2, it has
 *   modes     n1 * n2: mode i of the knee with mode j of the habit is mode i * n2 + j, and the start modes are joined likewise
 *   colours   k1 + k2: the knee's keep their numbers, colour j of the habit is colour k1 + j
 *   arcs      a joined arc for each pair of arcs with equal action: first the pairs of the knee's arc 0 with the habit's arcs in their
 *             order, then those of the knee's arc 1, and so on. Its draw is the sum of the two draws, its gain that of the two gains;
 *             it meets the colours of both arcs, and keeps their action
 * An arc with an action that the other model has on no arc is in no pair, and cannot be walked. For any c and b, the joined model has a
 * feasible and accepted plan exactly where the two models have plans with prefixes of one length, cycles of one length and the same
 * action at each step, such that every step is possible, in any number of rounds, on a charge that both share, with both draws first
 * and then both gains, and each colour of either model stands on some arc of that model's cycle. (With barred colours: each required
 * colour does, and no barred one; bit j of `barred` is the knee's colour j, bit k1 + j the habit's colour j.) The joined model goes
 * into every other call as any model does, and chargeplan_model_pair tells of which two arcs a joined arc is made.
 *
 * THE WARD. One plan is loaded into many knees, which have one model. Each wearer has a record: the start mode, the credit c and the bound
 * b of that wearer's knee, and a verdict, which the call fills with the number that judging answers for this wearer, 0 where he or she
 * can have the plan. The model is looked at first, before any wearer: where it is unfit (1, 3, 4 or 5) no verdict is written. A wrong
 * start mode (2) and wrong levels (6) are one wearer's, and so they are verdicts.
 *
 * LISTS, BUFFERS AND THE GAUGE. A list, buffer or text is a pointer, and a call is told the number of its elements. The caller sees to
 * three things: the memory is as long as the call is told, it is aligned as its type asks, and no two lists, buffers or texts of one
 * call, nor a gauge, share memory. One without elements may be a null pointer; a gauge may not. Reading and the join write to the
 * lists that they are lent to be filled, and the ward writes the verdicts of the wearers that it is lent; every call only reads the lists
 * of a model. No text needs a NUL byte at its end.
 *
 * THE ANSWER. One word of 64 bits: bits 0 to 7 the number, 8 to 31 the detail; with a plan found 32 to 47 p, 48 to 63 q; with a
 * walk 32 to 47 the steps made, 48 whether the colour was met; with a least credit or a least bound 32 to 63 the value. (Starting a gauge
 * answers a struct with that word and the gauge, a fresh reach and a switching one with that word and the reach, and reading, the join and
 * the ward a struct with number and detail in fields of their own.) Number 0 is yes; every other number is a refusal (below), the first
 * that applies, top to bottom; of a join 1 to 5 are first looked at of the knee and then of the habit, of a ward 1, 3, 4 and 5 of the model
 * and then the others wearer by wearer. The detail is 0 where none is named below, and all bits that are not named are 0.
 *
 * THE CALLS. First the calls over a struct chargeplan_model, which have the model in one argument. They are inline functions over the
 * library's own entries, which come after them and take each list with a length of its own.
 *
 * COST. Stack, with the arguments on it: up to 8,800 bytes for judging, 22,200 for search, 21,200 for the decision, 21,600 for the least
 * credit and for the least bound, 200 for starting a gauge and for a step of one, 10,900 for the walk, 600 for reading, 5,000 for the
 * join, 8,900 for the ward, however many wearers there are. Every call but reading and the ward reads the six lists of a model once; the
 * ward reads them once for the call, and once more for each wearer. Judging then looks at 2 * p + 4 * q places of the plan at most, at q
 * more where barred is not 0, and the walk at p + q more, or at as many as the allowance for a barred colour that is not met. Search
 * decides first, as the decision does, and where there is no plan that is all; else its passes try arcs at most m * (b + 1) * (k + 2)
 * times, where there are m of them and k colours are required: 12 million times at the ceilings. A search of a random model of 64 modes
 * takes 0.2 ms with a plan. The time of the decision, and of a search without a plan, does not grow with b: 5 to 100 us with 64 modes and
 * 255 arcs. The least credit and the least bound make at most 14 decisions each. The time of reading grows in proportion to the texts,
 * where the model is fit. The join looks at each pair of arcs twice, 65,025 pairs at most, in some 80 us. The ward takes as long as judging
 * for each wearer does: with 255 arcs and a plan of 64 some 1 us each, 0.7 of them for the lists. The time of a fresh reach, and of a
 * switching that changes a switch, does not grow with b: 4 to 11 us with 64 modes and 255 arcs, on 24,800 bytes of stack. docs/C-API.md
 * says how this was counted and measured; the times are those of the library as an older toolchain built it.
 */
#ifndef CHARGEPLAN_H
#define CHARGEPLAN_H

#include <stddef.h>
#include <stdint.h>

#ifdef __cplusplus
extern "C" {
#endif

/*
 * The version of the entries' signatures, raised whenever one changes. 5: four words of switches, behind the barred colours of search; with
 * CHARGEPLAN_ALL_ON it answers as before. 4: a byte of barred colours, behind c and b of judging, search and the walk; with 0 they answer
 * as before. 3: a sixth list, the actions; zeros in it make the model of before. 2: draws and gains. A header without this macro is version
 * 1, with one list of weights in their place.
 */
#define CHARGEPLAN_VERSION 5

/* The ceilings. */
#define CHARGEPLAN_MODES_MOST 64u
#define CHARGEPLAN_ARCS_MOST 255u
#define CHARGEPLAN_COLOURS_MOST 4u
#define CHARGEPLAN_BOUND_MOST 8191u
#define CHARGEPLAN_DECIDE_BOUND_MOST 1000000u /* of the decision alone */
#define CHARGEPLAN_PRODUCT_MOST 8192u /* of n * (b + 1), for search, the least credit and the least bound */
#define CHARGEPLAN_PLAN_MOST 65535u   /* arcs of a plan, for judging */
#define CHARGEPLAN_DRAW_MOST 10000u
#define CHARGEPLAN_GAIN_MOST 10000u
#define CHARGEPLAN_ACTION_MOST 15u

/*
 * Buffers of these sizes serve every search that 7 does not refuse: some 328 KB and 49 KB. The first serves every least credit and every
 * least bound, too. Every word of working space that is lent is set to 0, so a call that is lent only what its model needs
 * (chargeplan_work_words, chargeplan_least_bound_words) takes less time.
 */
#define CHARGEPLAN_WORK_WORDS_MOST (4u * (CHARGEPLAN_COLOURS_MOST + 1u) * CHARGEPLAN_PRODUCT_MOST)
#define CHARGEPLAN_PLAN_BYTES_MOST ((CHARGEPLAN_COLOURS_MOST + 2u) * CHARGEPLAN_PRODUCT_MOST)

/*
 * A working space of so many words, of 32 bits each, serves every decision, whatever the bound is: some 20 KB. Here too every word that is
 * lent is set to 0; chargeplan_decide_words has what a model needs.
 */
#define CHARGEPLAN_DECIDE_WORDS_MOST (16u * (CHARGEPLAN_COLOURS_MOST + 1u) * CHARGEPLAN_MODES_MOST)

/*
 * The switches: how many words they are, and the four words with which every arc is on, as an initialiser, {CHARGEPLAN_ALL_ON}, or as the
 * four arguments of an entry.
 */
#define CHARGEPLAN_ON_WORDS 4u
#define CHARGEPLAN_ALL_ON UINT64_MAX, UINT64_MAX, UINT64_MAX, UINT64_MAX

/* The charge of a mode that is not reached; it is above every bound of a reach. */
#define CHARGEPLAN_UNREACHED 65535u

/*
 * The numbers. Search answers 0 to 10; the decision 0 to 6, 8 and 10; the least credit 0 to 8 and 10; the least bound 0 to 5, 7, 8 and 10;
 * judging 0 to 6, 11 to 16, 24 and 17; starting a gauge 0 to 6; a step of a gauge 0 to 6, 22, 12, 13 and 15, the last four with detail 0;
 * the walk 0 to 6, 11 to 16, 24, 17 and 18; reading 0, 19 to 21 and 1 to 5; the join 0 to 5 and 23; the ward 0 to 6, 11 to 16, 24 and 17:
 * of these 1, 3, 4 and 5 are the model's, with the detail below, and all others but 0 are the verdict of the first wearer who cannot have
 * the plan, with that wearer's place in the list, counted from 0, as detail; a fresh reach 0 to 6; a switching 0 to 6 and 12, the last with
 * detail 0.
 */
enum {
    CHARGEPLAN_YES = 0,              /* judging: the plan is feasible and accepted; search: a plan is in the buffer; decision: there
                                        is a plan; least credit, least bound: the value is the number asked for; gauge: it is started,
                                        or has moved on; walk: the steps are made; reading, join: the lists are filled; ward: every
                                        verdict is 0; reach: it is made, or the arc is switched */
    CHARGEPLAN_HOA_LINE = 19,        /* reading: a line of the HOA text is outside the forms above, or missing; detail: the first
                                        such line, counted from 1, one past the last line where the text ends early */
    CHARGEPLAN_DIMACS_LINE = 20,     /* the same of the DIMACS text */
    CHARGEPLAN_TEXTS_DISAGREE = 21,  /* reading: the two texts have another n, number of arcs, source or target */
    CHARGEPLAN_MODE_COUNT = 1,       /* n is 0 or above 64 */
    CHARGEPLAN_START_MODE = 2,       /* the start mode is not below n */
    CHARGEPLAN_ARC_LISTS = 3,        /* the six arc lists are of unequal length, or longer than 255; reading: the texts have more
                                        arcs than 255 or than the shortest of the lists takes */
    CHARGEPLAN_COLOUR_COUNT = 4,     /* k is above 4 */
    CHARGEPLAN_UNFIT_ARC = 5,        /* a source or target not below n, a draw or gain above 10,000, a colour bit at or above k, or
                                        an action above 15; reading: a weight outside -10,000 to 10,000; detail: the lowest such
                                        arc */
    CHARGEPLAN_JOIN_SIZE = 23,       /* join: more than 64 joined modes, 255 joined arcs or 4 joined colours, a joined draw or gain
                                        above 10,000, or more joined arcs than the shortest of the lists takes */
    CHARGEPLAN_LEVELS = 6,           /* b is above 8,191, of the decision above 1,000,000, or c is above b; a step reads the gauge's
                                        own charge in place of c, and the least credit is given no c */
    CHARGEPLAN_MIXED_GAUGE = 22,     /* a step of a gauge: n, the number of arcs or b is not the one that it was started with */
    CHARGEPLAN_PRODUCT = 7,          /* n * (b + 1) is above 8,192; least bound: n * (c + 1) is, however great c is */
    CHARGEPLAN_WORKING_SPACE = 8,    /* the working space is too short */
    CHARGEPLAN_PLAN_BUFFER = 9,      /* the plan buffer is too short */
    CHARGEPLAN_NO_PLAN = 10,         /* no plan of any length, of arcs that are on, is feasible and accepted: none keeps both rules on
                                        colours; least credit, least bound: none is with any credit, or bound, that may be tried */
    CHARGEPLAN_PLAN_LENGTH = 11,     /* q is 0, p + q is not the plan's length, or that length is above 65,535 */
    CHARGEPLAN_ARC_NUMBER = 12,      /* an arc number is not below the number of arcs; detail: its first position */
    CHARGEPLAN_OTHER_MODE = 13,      /* an arc leaves another mode than the current one; detail: its first position */
    CHARGEPLAN_OPEN_CYCLE = 14,      /* the cycle ends in another mode than it began */
    CHARGEPLAN_IMPOSSIBLE_STEP = 15, /* a step is impossible: the charge is below the arc's draw; detail: the step, counted
                                        from 0 over the prefix, the first and the second round of the cycle. A step of a
                                        gauge: also where it would carry the spill past 64 bits */
    CHARGEPLAN_FALLING_CYCLE = 16,   /* the first and the second round each end lower than they began */
    CHARGEPLAN_BARRED_COLOUR = 24,   /* an arc of the cycle has a barred colour; detail: the position in the plan, the prefix
                                        counted, of the cycle's first such arc */
    CHARGEPLAN_MISSING_COLOUR = 17,  /* a required colour stands on no arc of the cycle; detail: the lowest such colour */
    CHARGEPLAN_NO_SUCH_COLOUR = 18   /* j is not below k; looked at after the plan */
};

/*
 * A gauge: where a walk stands on the bench. The mode, the charge, and the spill: all that was lost at the bound since the start.
 * For any accepted steps from a start: c + the gains walked = charge + the draws walked + spill. And what the gauge was started with,
 * which no step changes.
 */
struct chargeplan_gauge {
    uint8_t mode;
    uint16_t charge;
    uint64_t spill;
    uint8_t modes;  /* n */
    uint8_t arcs;   /* the number of arcs */
    uint16_t bound; /* b */
};

/* What starting a gauge answers: number and detail, and the new gauge, 0 in every field where it is refused. */
struct chargeplan_started {
    uint64_t answer;
    struct chargeplan_gauge gauge;
};

/* What reading and the join answer: number and detail, and the model's n, start mode, k and number of arcs, 0 where it is refused. */
struct chargeplan_reading {
    uint8_t number;
    uint64_t detail;
    uint32_t n, start, k, m;
};

/*
 * A model: its numbers, and its arcs as six lists of one length. Where `actions` is a null pointer, as in a model initialised by names
 * for version 2, the calls are told of no actions, so that 3 refuses a model with arcs.
 */
struct chargeplan_model {
    uint32_t n, start, k;
    const uint8_t *sources, *targets;
    const uint16_t *draws, *gains;
    const uint8_t *colours, *actions;
    size_t arcs;
};

/*
 * Six lists to be filled by reading or the join, each with room for so many arcs; CHARGEPLAN_ARCS_MOST are enough for every model.
 * Where `actions` is a null pointer, it has room for none.
 */
struct chargeplan_lists {
    uint8_t *sources, *targets;
    uint16_t *draws, *gains;
    uint8_t *colours, *actions;
    size_t room;
};

/* The two arcs that a joined arc is made of, by their numbers. */
struct chargeplan_pair {
    uint32_t knee, habit;
};

/* A wearer of a ward: the start mode, the credit and the bound, and the verdict, a number of judging, which the ward writes. */
struct chargeplan_wearer {
    uint32_t start, c, b;
    uint8_t verdict;
};

/* What the ward answers: number and detail. */
struct chargeplan_warded {
    uint8_t number;
    uint64_t detail;
};

/*
 * A reach: the switches, and for each mode the greatest charge with which it is reached over arcs that are on, or CHARGEPLAN_UNREACHED, as
 * for all places from n on.
 */
struct chargeplan_reach {
    uint64_t on[CHARGEPLAN_ON_WORDS];
    uint16_t charges[CHARGEPLAN_MODES_MOST];
};

/* What a fresh reach and a switching answer: number and detail, and the reach. */
struct chargeplan_reached {
    uint64_t answer;
    struct chargeplan_reach reach;
};

/*
 * Judging: whether a plan, of any origin, is feasible and accepted for the model.
 *
 * c, b     the credit and the bound
 * barred   the barred colours, bit j for colour j; 0 where there are none
 * p, q     lengths of the plan's prefix and cycle
 * plan     p + q arc numbers
 *
 * Answers 0 for yes, else the first of 1 to 6, 11 to 16, 24 and 17, in this order, that applies. Any number may be given: none is cut
 * down before it is looked at.
 */
static inline uint64_t chargeplan_model_judge(const struct chargeplan_model *m, uint32_t c, uint32_t b, uint8_t barred, uint32_t p,
    uint32_t q, const uint8_t *plan);

/*
 * Search: a plan for the model, or that there is none.
 *
 * c, b     the credit and the bound
 * barred   the barred colours, as in judging
 * on       the switches, four words, not a null pointer; {CHARGEPLAN_ALL_ON} where no arc is off
 * work     working space: at least chargeplan_work_words(n, k, b) words, whatever is barred or off; what stands in it does not matter
 * plan     plan buffer: at least chargeplan_plan_bytes(n, k, b) bytes, whatever is barred or off; what stands in it does not matter
 *
 * Answers 0 with p and q: the prefix is in plan[0] to plan[p - 1] and the cycle in plan[p] to plan[p + q - 1]; later bytes are
 * as they were. Every arc of the plan is on. Which such feasible and accepted plan it is, is free; equal n, start, k, lists, c, b, barred
 * colours and switches of the arcs give an equal plan, whatever the buffers are (docs/C-API.md says on what that rests). Answers 10 where
 * no plan of any length, of arcs that are on, is feasible and accepted: a larger b may help, or fewer barred colours, or more arcs that are
 * on, but no other buffer. After either, every word of work is 0, and after 10 plan is as it was. Else answers the first of 1 to 9 that
 * applies; work and plan are then as they were. 5 looks at the arcs that are off, too.
 */
static inline uint64_t chargeplan_model_search(const struct chargeplan_model *m, uint32_t c, uint32_t b, uint8_t barred,
    const uint64_t on[CHARGEPLAN_ON_WORDS], uint16_t *work, size_t work_length, uint8_t *plan, size_t plan_length);

/*
 * The decision: whether there is a plan for the model (THE DECISION, above).
 *
 * c, b     the credit and the bound, up to 1,000,000; n * (b + 1) may be above 8,192
 * barred   the barred colours, as in judging
 * on       the switches, four words, as in search
 * work     working space: at least chargeplan_decide_words(n, k) words of 32 bits, whatever b is and whatever is barred or off; what
 *          stands in it does not matter
 *
 * Answers 0 where some plan of any length, of arcs that are on, is feasible and accepted, and 10 where none is: a larger b may help, or
 * fewer barred colours, or more arcs that are on, but no other space. After either, every word of work is 0. Else answers the first of 1
 * to 6 and 8, in this order, that applies; work is then as it was. 5 looks at the arcs that are off, too. Where search answers 0 or 10, the
 * decision with the same model, c, b, barred colours and switches answers the same number.
 */
static inline uint64_t chargeplan_model_decide(const struct chargeplan_model *m, uint32_t c, uint32_t b, uint8_t barred,
    const uint64_t on[CHARGEPLAN_ON_WORDS], uint32_t *work, size_t work_length);

/*
 * The least credit: the least c with which there is a plan for the model (THE LEAST CREDIT AND THE LEAST BOUND, above).
 *
 * b        the bound
 * barred   the barred colours, as in judging
 * on       the switches, four words, as in search
 * work     working space: at least chargeplan_work_words(n, k, b) words of 16 bits, whatever is barred or off; what stands in it does not
 *          matter
 *
 * Answers 0 with the value (chargeplan_value), from 0 to b: with this credit some plan of any length, of arcs that are on, is feasible and
 * accepted, with each smaller one none is, and with each larger one up to b some is. Answers 10 where none is with any credit from 0 to b:
 * a larger b may help, or fewer barred colours, or more arcs that are on, but no other space. After either, every word of work is 0. Else
 * answers the first of 1 to 8 that applies, of which 6 is b above 8,191; work is then as it was. 5 looks at the arcs that are off, too. The
 * value is 0 after every refusal, and may be 0 with number 0: look at the number first. Search with the value as c, and this b, finds a
 * plan.
 */
static inline uint64_t chargeplan_model_least_credit(const struct chargeplan_model *m, uint32_t b, uint8_t barred,
    const uint64_t on[CHARGEPLAN_ON_WORDS], uint16_t *work, size_t work_length);

/*
 * The least bound: the least b, not below c, with which there is a plan for the model (THE LEAST CREDIT AND THE LEAST BOUND, above). The
 * largest that may be tried is chargeplan_largest_bound(n), with which n * (b + 1) is still at most 8,192.
 *
 * c        the credit, any number: one that as b would have n * (b + 1) above 8,192 is refused by 7, and 6 is not looked at
 * barred   the barred colours, as in judging
 * on       the switches, four words, as in search
 * work     working space: at least chargeplan_least_bound_words(n, k) words of 16 bits, whatever c is and whatever is barred or off: they are
 *          for the largest bound that may be tried. What stands in it does not matter
 *
 * Answers 0 with the value (chargeplan_value), from c to the largest bound: with this bound some plan of any length, of arcs that are on,
 * is feasible and accepted, with each smaller one from c on none is, and with each larger one that may be tried some is. Answers 10 where
 * none is with any bound from c to the largest: the decision tells of larger ones. After either, every word of work is 0. Else answers the
 * first of 1 to 5, 7 and 8, in this order, that applies; work is then as it was. 5 looks at the arcs that are off, too. The value is 0 after
 * every refusal, and may be 0 with number 0: look at the number first. Search with the value as b, and this c, finds a plan.
 */
static inline uint64_t chargeplan_model_least_bound(const struct chargeplan_model *m, uint32_t c, uint8_t barred,
    const uint64_t on[CHARGEPLAN_ON_WORDS], uint16_t *work, size_t work_length);

/*
 * Starting a gauge. The call is lent no gauge and hands back a new one, in the start mode with charge c and spill 0, which carries
 * n, the number of arcs and b.
 *
 * Answers 0, or the first of 1 to 6 that applies and a gauge of zeros.
 */
static inline struct chargeplan_started chargeplan_model_gauge_start(const struct chargeplan_model *m, uint32_t c, uint32_t b);

/*
 * A step of a gauge on an arc of the model.
 *
 * gauge   lent to the call, which moves it on
 * m, b    the model and the bound that the gauge was started with. Another n, number of arcs or b is refused, by 22 where none of
 *         1 to 6 applies; so is every step of the gauge of a refused start. Another model with the same n, number of arcs and b is
 *         not refused: the call cannot tell it, and steps on the arcs it is given.
 * arc     the arc's number
 *
 * Answers 0 and moves the gauge on, or answers the first of 1 to 6, 22, 12, 13 and 15, in this order, that applies and leaves its six
 * fields as they were. What stands between and behind the fields may change.
 */
static inline uint64_t chargeplan_model_gauge_step(struct chargeplan_gauge *gauge, const struct chargeplan_model *m, uint32_t b,
    uint32_t arc);

/*
 * The walk: judges a plan, then steps it from its beginning, the cycle repeating, until colour j is first met or the allowance is
 * spent.
 *
 * c, b, barred, p, q, plan   as in judging
 * j                          the colour, which may be a barred one
 * allowance                  the steps that may be made, 0 to 65,535
 *
 * Answers 0 with the steps made: where the colour was met (chargeplan_met), the step that meets it counted; where it was not, the
 * whole allowance. An allowance of p + q steps or more meets a required colour. A barred one is met in the prefix or not at all. Else
 * answers the first of 1 to 6, 11 to 16, 24, 17 and 18, in this order, that applies, with 0 steps.
 */
static inline uint64_t chargeplan_model_walk(const struct chargeplan_model *m, uint32_t c, uint32_t b, uint8_t barred, uint32_t p,
    uint32_t q, const uint8_t *plan, uint32_t j, uint16_t allowance);

/*
 * Reading: the model that two texts define (THE TEXTS, above).
 *
 * m        is given the model that was read; its lists are those of `lists`
 * lists    the lists to be filled
 * hoa      the HOA text
 * dimacs   the DIMACS text
 *
 * Answers number 0 and the model's numbers, and writes one place of each list per arc, from place 0; later places are as they were. Else
 * answers the first of 19, 20, 21 and 1 to 5, in this order, that applies, and leaves all lists as they were; m then has n 0 and no
 * arcs, which every call refuses by 1. Equal texts and an equal room give an equal answer, whatever stands in the lists. The texts may
 * be of any length. A model that was read is fit.
 */
static inline struct chargeplan_reading chargeplan_model_read(struct chargeplan_model *m, const struct chargeplan_lists *lists,
    const uint8_t *hoa, size_t hoa_length, const uint8_t *dimacs, size_t dimacs_length);

/*
 * The join: the model of a knee and a habit at once (THE JOIN, above).
 *
 * m        is given the joined model; its lists are those of `lists`
 * lists    the lists to be filled
 * knee     the knee
 * habit    the habit, with lists of its own
 *
 * Answers number 0 and the joined model's numbers, and writes one place of each list per joined arc, from place 0; later places are as
 * they were. Else answers the first of 1 to 5 of the knee, 1 to 5 of the habit, and 23, in this order, that applies, and leaves all
 * lists as they were; m then has n 0 and no arcs, which every call refuses by 1. A model that was joined is fit. The answer does not
 * tell whose number 1 to 5 is: it is the knee's exactly where starting a gauge of the knee, with c 0 and b 0, is refused.
 */
static inline struct chargeplan_reading chargeplan_model_join(struct chargeplan_model *m, const struct chargeplan_lists *lists,
    const struct chargeplan_model *knee, const struct chargeplan_model *habit);

/*
 * The two arcs that a joined arc is made of.
 *
 * knee, habit   as in the join
 * arc           the number of the joined arc
 *
 * Counts the pairs of arcs with equal action in the order of the join, in up to 65,025 steps. Of a number that no joined arc has, both
 * fields are the number of arcs, of the knee and of the habit, which are the numbers of no arcs.
 */
static inline struct chargeplan_pair chargeplan_model_pair(const struct chargeplan_model *knee, const struct chargeplan_model *habit,
    uint32_t arc);

/*
 * The ward: one plan judged for each of many wearers (THE WARD, above).
 *
 * wearers              lent to the call, which writes their verdicts; there may be any number of them, also none
 * m                    the model that their knees have. Its start mode is not looked at: each wearer has one.
 * barred, p, q, plan   as in judging
 *
 * Answers the first of 1, 3, 4 and 5 that applies to the model, with its detail, also where there are no wearers, and leaves all wearers as
 * they were: look at the number before the verdicts. Else every verdict becomes the number that judging answers for the model with this
 * wearer's start mode, c and b: 0, 2, 6, 11 to 16, 24 or 17. Then the answer is 0 where all verdicts are 0, and so where there are no
 * wearers; else it is the first other verdict, with its wearer's place, counted from 0, as detail. What stands in a verdict before the
 * call does not matter. Start mode, c and b of each wearer are as they were; what stands behind a verdict may change. The details of the
 * verdicts are not kept: judging tells that of one wearer.
 */
static inline struct chargeplan_warded chargeplan_model_ward(struct chargeplan_wearer *wearers, size_t wearers_length,
    const struct chargeplan_model *m, uint8_t barred, uint32_t p, uint32_t q, const uint8_t *plan);

/*
 * A fresh reach (THE REACH, above).
 *
 * c, b   the credit and the bound; n * (b + 1) may be above 8,192, since no working space is lent
 * on     the switches, four words, as in search
 *
 * Answers 0 and the reach: the switches as they are given, all bits of them, and the charges. Else answers the first of 1 to 6 that
 * applies, and a reach with the switches as they are given in which every mode is unreached.
 */
static inline struct chargeplan_reached chargeplan_model_reach_start(const struct chargeplan_model *m, uint32_t c, uint32_t b,
    const uint64_t on[CHARGEPLAN_ON_WORDS]);

/*
 * An arc switched on or off, and the charges after it.
 *
 * reach   the reach before, by value; the new one is handed back
 * m       the model, with c and b: those of the fresh reach. With others the charges are those of a fresh reach with the others.
 * arc     the arc's number
 * on      0 switches the arc off, any other byte switches it on
 *
 * Answers 0 and the reach with the arc switched. Where it was switched so already, this is the reach as it was given, whatever stands in
 * it; else the arc's bit alone is another, and the charges are those of a fresh reach with these switches, whatever the charges were. Else
 * answers the first of 1 to 6 and 12, in this order, that applies, and the reach as it was given.
 */
static inline struct chargeplan_reached chargeplan_model_reach_switch(struct chargeplan_reach reach, const struct chargeplan_model *m,
    uint32_t c, uint32_t b, uint32_t arc, uint8_t on);

/* Whether an arc is on: 1 or 0. For every number: one above 255, which has no bit, gives 0. */
static inline uint32_t chargeplan_is_on(const uint64_t on[CHARGEPLAN_ON_WORDS], uint32_t arc);

/* The library's entry for judging: each list, and the plan, with its own length. */
uint64_t chargeplan_judge(
    uint32_t n, uint32_t start, uint32_t k,
    const uint8_t *sources, size_t sources_length,
    const uint8_t *targets, size_t targets_length,
    const uint16_t *draws, size_t draws_length,
    const uint16_t *gains, size_t gains_length,
    const uint8_t *colours, size_t colours_length,
    const uint8_t *actions, size_t actions_length,
    uint32_t c, uint32_t b, uint8_t barred,
    uint32_t p, uint32_t q,
    const uint8_t *plan, size_t plan_length);

/* The library's entry for search. The switches are four words, on0 with the arcs 0 to 63 to on3 with the arcs from 192 on. */
uint64_t chargeplan_search(
    uint32_t n, uint32_t start, uint32_t k,
    const uint8_t *sources, size_t sources_length,
    const uint8_t *targets, size_t targets_length,
    const uint16_t *draws, size_t draws_length,
    const uint16_t *gains, size_t gains_length,
    const uint8_t *colours, size_t colours_length,
    const uint8_t *actions, size_t actions_length,
    uint32_t c, uint32_t b, uint8_t barred,
    uint64_t on0, uint64_t on1, uint64_t on2, uint64_t on3,
    uint16_t *work, size_t work_length,
    uint8_t *plan, size_t plan_length);

/* The library's entry for the decision: as search, with words of 32 bits and without a plan buffer. */
uint64_t chargeplan_decide(
    uint32_t n, uint32_t start, uint32_t k,
    const uint8_t *sources, size_t sources_length,
    const uint8_t *targets, size_t targets_length,
    const uint16_t *draws, size_t draws_length,
    const uint16_t *gains, size_t gains_length,
    const uint8_t *colours, size_t colours_length,
    const uint8_t *actions, size_t actions_length,
    uint32_t c, uint32_t b, uint8_t barred,
    uint64_t on0, uint64_t on1, uint64_t on2, uint64_t on3,
    uint32_t *work, size_t work_length);

/* The library's entry for the least credit: as search, with b alone of the levels, and without a plan buffer. */
uint64_t chargeplan_least_credit(
    uint32_t n, uint32_t start, uint32_t k,
    const uint8_t *sources, size_t sources_length,
    const uint8_t *targets, size_t targets_length,
    const uint16_t *draws, size_t draws_length,
    const uint16_t *gains, size_t gains_length,
    const uint8_t *colours, size_t colours_length,
    const uint8_t *actions, size_t actions_length,
    uint32_t b, uint8_t barred,
    uint64_t on0, uint64_t on1, uint64_t on2, uint64_t on3,
    uint16_t *work, size_t work_length);

/* The library's entry for the least bound: as search, with c alone of the levels, and without a plan buffer. */
uint64_t chargeplan_least_bound(
    uint32_t n, uint32_t start, uint32_t k,
    const uint8_t *sources, size_t sources_length,
    const uint8_t *targets, size_t targets_length,
    const uint16_t *draws, size_t draws_length,
    const uint16_t *gains, size_t gains_length,
    const uint8_t *colours, size_t colours_length,
    const uint8_t *actions, size_t actions_length,
    uint32_t c, uint8_t barred,
    uint64_t on0, uint64_t on1, uint64_t on2, uint64_t on3,
    uint16_t *work, size_t work_length);

/* The library's entry for starting a gauge. */
struct chargeplan_started chargeplan_gauge_start(
    uint32_t n, uint32_t start, uint32_t k,
    const uint8_t *sources, size_t sources_length,
    const uint8_t *targets, size_t targets_length,
    const uint16_t *draws, size_t draws_length,
    const uint16_t *gains, size_t gains_length,
    const uint8_t *colours, size_t colours_length,
    const uint8_t *actions, size_t actions_length,
    uint32_t c, uint32_t b);

/* The library's entry for a step of a gauge. */
uint64_t chargeplan_gauge_step(
    struct chargeplan_gauge *gauge,
    uint32_t n, uint32_t start, uint32_t k,
    const uint8_t *sources, size_t sources_length,
    const uint8_t *targets, size_t targets_length,
    const uint16_t *draws, size_t draws_length,
    const uint16_t *gains, size_t gains_length,
    const uint8_t *colours, size_t colours_length,
    const uint8_t *actions, size_t actions_length,
    uint32_t b, uint32_t arc);

/* The library's entry for the walk. */
uint64_t chargeplan_walk(
    uint32_t n, uint32_t start, uint32_t k,
    const uint8_t *sources, size_t sources_length,
    const uint8_t *targets, size_t targets_length,
    const uint16_t *draws, size_t draws_length,
    const uint16_t *gains, size_t gains_length,
    const uint8_t *colours, size_t colours_length,
    const uint8_t *actions, size_t actions_length,
    uint32_t c, uint32_t b, uint8_t barred,
    uint32_t p, uint32_t q,
    const uint8_t *plan, size_t plan_length,
    uint32_t j, uint16_t allowance);

/* The library's entry for reading. The lists may be of any lengths, also unequal ones: the shortest decides how many arcs they take. */
struct chargeplan_reading chargeplan_read(
    const uint8_t *hoa, size_t hoa_length,
    const uint8_t *dimacs, size_t dimacs_length,
    uint8_t *sources, size_t sources_length,
    uint8_t *targets, size_t targets_length,
    uint16_t *draws, size_t draws_length,
    uint16_t *gains, size_t gains_length,
    uint8_t *colours, size_t colours_length,
    uint8_t *actions, size_t actions_length);

/*
 * The library's entry for the join: the knee, the habit, and the lists to be filled, which may be of any lengths, also unequal ones, as
 * those of reading.
 */
struct chargeplan_reading chargeplan_join(
    uint32_t n1, uint32_t start1, uint32_t k1,
    const uint8_t *sources1, size_t sources1_length,
    const uint8_t *targets1, size_t targets1_length,
    const uint16_t *draws1, size_t draws1_length,
    const uint16_t *gains1, size_t gains1_length,
    const uint8_t *colours1, size_t colours1_length,
    const uint8_t *actions1, size_t actions1_length,
    uint32_t n2, uint32_t start2, uint32_t k2,
    const uint8_t *sources2, size_t sources2_length,
    const uint8_t *targets2, size_t targets2_length,
    const uint16_t *draws2, size_t draws2_length,
    const uint16_t *gains2, size_t gains2_length,
    const uint8_t *colours2, size_t colours2_length,
    const uint8_t *actions2, size_t actions2_length,
    uint8_t *sources, size_t sources_length,
    uint8_t *targets, size_t targets_length,
    uint16_t *draws, size_t draws_length,
    uint16_t *gains, size_t gains_length,
    uint8_t *colours, size_t colours_length,
    uint8_t *actions, size_t actions_length);

/* The library's entry for the ward. The wearers share no memory with the other lists. */
struct chargeplan_warded chargeplan_ward(
    struct chargeplan_wearer *wearers, size_t wearers_length,
    uint32_t n, uint32_t k,
    const uint8_t *sources, size_t sources_length,
    const uint8_t *targets, size_t targets_length,
    const uint16_t *draws, size_t draws_length,
    const uint16_t *gains, size_t gains_length,
    const uint8_t *colours, size_t colours_length,
    const uint8_t *actions, size_t actions_length,
    uint8_t barred,
    uint32_t p, uint32_t q,
    const uint8_t *plan, size_t plan_length);

/* The library's entry for a fresh reach, with switches as those of search. */
struct chargeplan_reached chargeplan_reach_start(
    uint32_t n, uint32_t start, uint32_t k,
    const uint8_t *sources, size_t sources_length,
    const uint8_t *targets, size_t targets_length,
    const uint16_t *draws, size_t draws_length,
    const uint16_t *gains, size_t gains_length,
    const uint8_t *colours, size_t colours_length,
    const uint8_t *actions, size_t actions_length,
    uint32_t c, uint32_t b,
    uint64_t on0, uint64_t on1, uint64_t on2, uint64_t on3);

/* The library's entry for a switching. */
struct chargeplan_reached chargeplan_reach_switch(
    struct chargeplan_reach reach,
    uint32_t n, uint32_t start, uint32_t k,
    const uint8_t *sources, size_t sources_length,
    const uint8_t *targets, size_t targets_length,
    const uint16_t *draws, size_t draws_length,
    const uint16_t *gains, size_t gains_length,
    const uint8_t *colours, size_t colours_length,
    const uint8_t *actions, size_t actions_length,
    uint32_t c, uint32_t b,
    uint32_t arc, uint8_t on);

/* The number of an answer. */
static inline uint32_t chargeplan_number(uint64_t answer)
{
    return (uint32_t)(answer & 0xffu);
}

/* The detail of an answer. */
static inline uint32_t chargeplan_detail(uint64_t answer)
{
    return (uint32_t)((answer >> 8) & 0xffffffu);
}

/* p of a plan found: the length of its prefix. */
static inline uint32_t chargeplan_prefix(uint64_t answer)
{
    return (uint32_t)((answer >> 32) & 0xffffu);
}

/* q of a plan found: the length of its cycle. */
static inline uint32_t chargeplan_cycle(uint64_t answer)
{
    return (uint32_t)(answer >> 48);
}

/* The steps that a walk made. */
static inline uint32_t chargeplan_steps(uint64_t answer)
{
    return (uint32_t)((answer >> 32) & 0xffffu);
}

/* Whether a walk met its colour: 1 or 0. */
static inline uint32_t chargeplan_met(uint64_t answer)
{
    return (uint32_t)((answer >> 48) & 1u);
}

/* The value of a least credit or a least bound; 0 where it is refused. */
static inline uint32_t chargeplan_value(uint64_t answer)
{
    return (uint32_t)(answer >> 32);
}

/*
 * The draw and the gain of an arc that has one signed weight: of a negative weight w draw -w, gain 0, else draw 0, gain w. A step on it
 * is what it was by the weight alone: it takes charge e to the smaller of e + w and b, and is possible where e + w is at least 0. For
 * every weight: one outside -10,000 to 10,000 gives a draw or a gain that 5 refuses.
 */
static inline uint16_t chargeplan_draw_of(int16_t weight)
{
    return (uint16_t)(weight < 0 ? -(int32_t)weight : 0);
}

static inline uint16_t chargeplan_gain_of(int16_t weight)
{
    return (uint16_t)(weight < 0 ? 0 : weight);
}

/* Whether search refuses n, k and b whatever the lists and buffers are (1, 4, 6 or 7). */
static inline int chargeplan_unsearchable(uint32_t n, uint32_t k, uint32_t b)
{
    return n == 0 || n > CHARGEPLAN_MODES_MOST || k > CHARGEPLAN_COLOURS_MOST || b > CHARGEPLAN_BOUND_MOST
        || n * (b + 1) > CHARGEPLAN_PRODUCT_MOST;
}

/* The words of working space that search needs, 4 * (k + 1) * n * (b + 1); 0 where it refuses n, k and b in any case. */
static inline size_t chargeplan_work_words(uint32_t n, uint32_t k, uint32_t b)
{
    return chargeplan_unsearchable(n, k, b) ? 0 : (size_t)4 * (k + 1) * n * (b + 1);
}

/* The bytes of plan buffer that search needs, (k + 2) * n * (b + 1); 0 where it refuses n, k and b in any case. */
static inline size_t chargeplan_plan_bytes(uint32_t n, uint32_t k, uint32_t b)
{
    return chargeplan_unsearchable(n, k, b) ? 0 : (size_t)(k + 2) * n * (b + 1);
}

/* The largest bound with which n * (b + 1) is at most 8,192; 0 where n is 0 or above 8,192. */
static inline uint32_t chargeplan_largest_bound(uint32_t n)
{
    return n == 0 || n > CHARGEPLAN_PRODUCT_MOST ? 0 : CHARGEPLAN_PRODUCT_MOST / n - 1;
}

/*
 * The words of working space that the least bound needs: those that search needs for the largest bound; 0 where n or k is refused in any
 * case (1 or 4). The least credit needs those that search needs, chargeplan_work_words(n, k, b).
 */
static inline size_t chargeplan_least_bound_words(uint32_t n, uint32_t k)
{
    return chargeplan_work_words(n, k, chargeplan_largest_bound(n));
}

/* The words of working space that the decision needs, 16 * (k + 1) * n, of 32 bits each; 0 where it refuses n or k in any case (1 or 4). */
static inline size_t chargeplan_decide_words(uint32_t n, uint32_t k)
{
    return n > CHARGEPLAN_MODES_MOST || k > CHARGEPLAN_COLOURS_MOST ? 0 : (size_t)16 * (k + 1) * n;
}

/* The length of a model's list of actions: 0 where the pointer is null. */
static inline size_t chargeplan_model_actions(const struct chargeplan_model *m)
{
    return m->actions == NULL ? 0 : m->arcs;
}

/* The same of a list to be filled. */
static inline size_t chargeplan_lists_actions(const struct chargeplan_lists *lists)
{
    return lists->actions == NULL ? 0 : lists->room;
}

static inline uint64_t chargeplan_model_judge(const struct chargeplan_model *m, uint32_t c, uint32_t b, uint8_t barred, uint32_t p,
    uint32_t q, const uint8_t *plan)
{
    return chargeplan_judge(m->n, m->start, m->k, m->sources, m->arcs, m->targets, m->arcs, m->draws, m->arcs, m->gains, m->arcs,
        m->colours, m->arcs, m->actions, chargeplan_model_actions(m), c, b, barred, p, q, plan, (size_t)p + q);
}

static inline uint64_t chargeplan_model_search(const struct chargeplan_model *m, uint32_t c, uint32_t b, uint8_t barred,
    const uint64_t on[CHARGEPLAN_ON_WORDS], uint16_t *work, size_t work_length, uint8_t *plan, size_t plan_length)
{
    return chargeplan_search(m->n, m->start, m->k, m->sources, m->arcs, m->targets, m->arcs, m->draws, m->arcs, m->gains, m->arcs,
        m->colours, m->arcs, m->actions, chargeplan_model_actions(m), c, b, barred, on[0], on[1], on[2], on[3], work, work_length, plan,
        plan_length);
}

static inline uint64_t chargeplan_model_decide(const struct chargeplan_model *m, uint32_t c, uint32_t b, uint8_t barred,
    const uint64_t on[CHARGEPLAN_ON_WORDS], uint32_t *work, size_t work_length)
{
    return chargeplan_decide(m->n, m->start, m->k, m->sources, m->arcs, m->targets, m->arcs, m->draws, m->arcs, m->gains, m->arcs,
        m->colours, m->arcs, m->actions, chargeplan_model_actions(m), c, b, barred, on[0], on[1], on[2], on[3], work, work_length);
}

static inline uint64_t chargeplan_model_least_credit(const struct chargeplan_model *m, uint32_t b, uint8_t barred,
    const uint64_t on[CHARGEPLAN_ON_WORDS], uint16_t *work, size_t work_length)
{
    return chargeplan_least_credit(m->n, m->start, m->k, m->sources, m->arcs, m->targets, m->arcs, m->draws, m->arcs, m->gains, m->arcs,
        m->colours, m->arcs, m->actions, chargeplan_model_actions(m), b, barred, on[0], on[1], on[2], on[3], work, work_length);
}

static inline uint64_t chargeplan_model_least_bound(const struct chargeplan_model *m, uint32_t c, uint8_t barred,
    const uint64_t on[CHARGEPLAN_ON_WORDS], uint16_t *work, size_t work_length)
{
    return chargeplan_least_bound(m->n, m->start, m->k, m->sources, m->arcs, m->targets, m->arcs, m->draws, m->arcs, m->gains, m->arcs,
        m->colours, m->arcs, m->actions, chargeplan_model_actions(m), c, barred, on[0], on[1], on[2], on[3], work, work_length);
}

static inline struct chargeplan_started chargeplan_model_gauge_start(const struct chargeplan_model *m, uint32_t c, uint32_t b)
{
    return chargeplan_gauge_start(m->n, m->start, m->k, m->sources, m->arcs, m->targets, m->arcs, m->draws, m->arcs, m->gains, m->arcs,
        m->colours, m->arcs, m->actions, chargeplan_model_actions(m), c, b);
}

static inline uint64_t chargeplan_model_gauge_step(struct chargeplan_gauge *gauge, const struct chargeplan_model *m, uint32_t b,
    uint32_t arc)
{
    return chargeplan_gauge_step(gauge, m->n, m->start, m->k, m->sources, m->arcs, m->targets, m->arcs, m->draws, m->arcs, m->gains,
        m->arcs, m->colours, m->arcs, m->actions, chargeplan_model_actions(m), b, arc);
}

static inline uint64_t chargeplan_model_walk(const struct chargeplan_model *m, uint32_t c, uint32_t b, uint8_t barred, uint32_t p,
    uint32_t q, const uint8_t *plan, uint32_t j, uint16_t allowance)
{
    return chargeplan_walk(m->n, m->start, m->k, m->sources, m->arcs, m->targets, m->arcs, m->draws, m->arcs, m->gains, m->arcs,
        m->colours, m->arcs, m->actions, chargeplan_model_actions(m), c, b, barred, p, q, plan, (size_t)p + q, j, allowance);
}

/* The model of which a call has filled the lists. */
static inline void chargeplan_model_filled(struct chargeplan_model *m, const struct chargeplan_lists *lists,
    const struct chargeplan_reading *reading)
{
    m->n = reading->n;
    m->start = reading->start;
    m->k = reading->k;
    m->sources = lists->sources;
    m->targets = lists->targets;
    m->draws = lists->draws;
    m->gains = lists->gains;
    m->colours = lists->colours;
    m->actions = lists->actions;
    m->arcs = reading->m;
}

static inline struct chargeplan_reading chargeplan_model_read(struct chargeplan_model *m, const struct chargeplan_lists *lists,
    const uint8_t *hoa, size_t hoa_length, const uint8_t *dimacs, size_t dimacs_length)
{
    struct chargeplan_reading reading = chargeplan_read(hoa, hoa_length, dimacs, dimacs_length, lists->sources, lists->room,
        lists->targets, lists->room, lists->draws, lists->room, lists->gains, lists->room, lists->colours, lists->room, lists->actions,
        chargeplan_lists_actions(lists));

    chargeplan_model_filled(m, lists, &reading);
    return reading;
}

static inline struct chargeplan_reading chargeplan_model_join(struct chargeplan_model *m, const struct chargeplan_lists *lists,
    const struct chargeplan_model *knee, const struct chargeplan_model *habit)
{
    struct chargeplan_reading reading = chargeplan_join(knee->n, knee->start, knee->k, knee->sources, knee->arcs, knee->targets,
        knee->arcs, knee->draws, knee->arcs, knee->gains, knee->arcs, knee->colours, knee->arcs, knee->actions,
        chargeplan_model_actions(knee), habit->n, habit->start, habit->k, habit->sources, habit->arcs, habit->targets, habit->arcs,
        habit->draws, habit->arcs, habit->gains, habit->arcs, habit->colours, habit->arcs, habit->actions,
        chargeplan_model_actions(habit), lists->sources, lists->room, lists->targets, lists->room, lists->draws, lists->room,
        lists->gains, lists->room, lists->colours, lists->room, lists->actions, chargeplan_lists_actions(lists));

    chargeplan_model_filled(m, lists, &reading);
    return reading;
}

static inline struct chargeplan_pair chargeplan_model_pair(const struct chargeplan_model *knee, const struct chargeplan_model *habit,
    uint32_t arc)
{
    size_t knee_arcs = chargeplan_model_actions(knee), habit_arcs = chargeplan_model_actions(habit), i, j;
    struct chargeplan_pair pair = {(uint32_t)knee->arcs, (uint32_t)habit->arcs};

    for (i = 0; i < knee_arcs; i++)
        for (j = 0; j < habit_arcs; j++)
            if (knee->actions[i] == habit->actions[j] && arc-- == 0) {
                pair.knee = (uint32_t)i;
                pair.habit = (uint32_t)j;
                return pair;
            }
    return pair;
}

static inline struct chargeplan_warded chargeplan_model_ward(struct chargeplan_wearer *wearers, size_t wearers_length,
    const struct chargeplan_model *m, uint8_t barred, uint32_t p, uint32_t q, const uint8_t *plan)
{
    return chargeplan_ward(wearers, wearers_length, m->n, m->k, m->sources, m->arcs, m->targets, m->arcs, m->draws, m->arcs, m->gains,
        m->arcs, m->colours, m->arcs, m->actions, chargeplan_model_actions(m), barred, p, q, plan, (size_t)p + q);
}

static inline struct chargeplan_reached chargeplan_model_reach_start(const struct chargeplan_model *m, uint32_t c, uint32_t b,
    const uint64_t on[CHARGEPLAN_ON_WORDS])
{
    return chargeplan_reach_start(m->n, m->start, m->k, m->sources, m->arcs, m->targets, m->arcs, m->draws, m->arcs, m->gains, m->arcs,
        m->colours, m->arcs, m->actions, chargeplan_model_actions(m), c, b, on[0], on[1], on[2], on[3]);
}

static inline struct chargeplan_reached chargeplan_model_reach_switch(struct chargeplan_reach reach, const struct chargeplan_model *m,
    uint32_t c, uint32_t b, uint32_t arc, uint8_t on)
{
    return chargeplan_reach_switch(reach, m->n, m->start, m->k, m->sources, m->arcs, m->targets, m->arcs, m->draws, m->arcs, m->gains,
        m->arcs, m->colours, m->arcs, m->actions, chargeplan_model_actions(m), c, b, arc, on);
}

static inline uint32_t chargeplan_is_on(const uint64_t on[CHARGEPLAN_ON_WORDS], uint32_t arc)
{
    return arc / 64 < CHARGEPLAN_ON_WORDS ? (uint32_t)(on[arc / 64] >> arc % 64 & 1u) : 0;
}

#ifdef __cplusplus
}
#endif

#endif
