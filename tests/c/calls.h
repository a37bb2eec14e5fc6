/*
 * The calls of the C tests: each is made with lists, buffers and gauge in blocks of their own, exactly as long as the call is told, so
 * that valgrind sees an access beside them, and checked for what it must leave as it was.
 */
#ifndef CALLS_H
#define CALLS_H

#include "chargeplan.h"
#include "plain.h"
#include "plain_reader.h"

extern unsigned long checks, failures;

/* Of many failures only the first are printed. */
enum { PRINTED_MOST = 100 };

/* Counts a check, and prints what failed. */
void check(int holds, const char *what);

/* An answer has this number and detail, and every other bit is 0. */
void check_answer(const char *what, uint64_t answer, uint32_t number, uint32_t detail);

/* An answer of the walk has this number and detail, these steps and whether the colour was met, and every other bit is 0. */
void check_outcome(const char *what, uint64_t answer, struct outcome expected);

/* A gauge is as expected in all six fields. */
void check_gauge(const char *what, struct gauge g, struct gauge expected);

/* A block of its own with the same content, or without one where `from` is null; null where it has no bytes. */
void *copied(const void *from, size_t bytes);

/* Whether so many bytes are the same; there may be none. */
int same(const void *x, const void *y, size_t bytes);

/* Whether so many bytes are 0; there may be none. */
int is_cleared(const void *block, size_t bytes);

/* The lists of a model in blocks of their own. */
struct lent {
    uint8_t *sources, *targets, *colours, *actions;
    uint16_t *draws, *gains;
};

struct lent lend(const struct model *m);

/* Takes the lists back; they are as they were. */
void take_back(const struct model *m, struct lent l, const char *what);

/* Judging; the lists and the plan are as they were. */
uint64_t judge(const char *what, const struct model *m, uint32_t c, uint32_t b, uint32_t p, uint32_t q, const uint8_t *plan,
    size_t length);

/* Judging against what it should answer, and against the plain reading. The walk is refused likewise, and by 18 only after a yes. */
void judged(const char *what, const struct model *m, uint32_t c, uint32_t b, uint32_t p, uint32_t q, const uint8_t *plan,
    size_t length, uint32_t number, uint32_t detail);

/*
 * Search with junk in buffers of these sizes; what it leaves in them is checked by its answer, and a plan is judged and has only arcs that
 * are on. Where it answers 0 or 10, the decision does so, too.
 */
uint64_t search(const char *what, const struct model *m, uint32_t c, uint32_t b, size_t words, size_t bytes, unsigned junk);

/*
 * Search with buffers exactly as long as they must be, and longer, with different junk: the answer is the same. A plan found is copied
 * to `plan`, unless that is null.
 */
uint64_t search_exactly(const char *what, const struct model *m, uint32_t c, uint32_t b, uint8_t *plan);

/* Search finds a plan. */
void found(const char *what, const struct model *m, uint32_t c, uint32_t b);

/* Search is refused, with buffers as long as they must be. */
void refused(const char *what, const struct model *m, uint32_t c, uint32_t b, uint32_t number, uint32_t detail);

/* The gauge of a refused start: 0 in every field. */
extern const struct gauge no_gauge;

/* A gauge made by hand, as if it was started with this model and bound. What its fields cannot hold is cut off. */
struct gauge gauge_at(const struct model *m, uint32_t b, uint32_t mode, uint32_t charge, uint64_t spill);

/* What a gauge can be mixed up in: any of these three together. */
enum { MIX_MODES = 1, MIX_ARCS = 2, MIX_BOUND = 4, MIX_ALL = 7 };

/* The gauge with so much added to the fields named. */
struct gauge mixed_up(struct gauge g, unsigned fields, unsigned by);

/* The six fields as the library has left them. */
struct gauge read_gauge(const struct chargeplan_gauge *from);

/* Starting a gauge, which is handed back in g; the lists are as they were. */
uint64_t start_gauge(const char *what, struct gauge *g, const struct model *m, uint32_t c, uint32_t b);

/* Starting a gauge against what it should answer, and against the plain gauge. */
void started(const char *what, struct gauge *g, const struct model *m, uint32_t c, uint32_t b, uint32_t number, uint32_t detail);

/*
 * A step of a gauge; the lists are as they were, and so is the gauge where the step is refused. What the gauge was started with is as
 * it was in any case.
 */
uint64_t step_gauge(const char *what, struct gauge *g, const struct model *m, uint32_t b, uint32_t arc);

/* A step of a gauge against what it should answer, and against the plain gauge. */
void stepped(const char *what, struct gauge *g, const struct model *m, uint32_t b, uint32_t arc, uint32_t number, uint32_t detail);

/* A step that is made, and where the gauge stands after it. */
struct stop {
    uint32_t arc, mode, charge;
    uint64_t spill;
};

/* A gauge of this model, or of one with the same n and number of arcs, and of this bound makes a step. */
void moved(const char *what, struct gauge *g, const struct model *m, uint32_t b, struct stop stop);

/* The walk; the lists and the plan are as they were. */
uint64_t walk(const char *what, const struct model *m, uint32_t c, uint32_t b, uint32_t p, uint32_t q, const uint8_t *plan,
    size_t length, uint32_t j, uint16_t allowance);

/* The walk against what it should answer, and against the plain walk. */
void walked(const char *what, const struct model *m, uint32_t c, uint32_t b, uint32_t p, uint32_t q, const uint8_t *plan,
    size_t length, uint32_t j, uint16_t allowance, struct outcome expected);

/* What a walk should answer: the colour is met, the allowance is spent, or it is refused. */
struct outcome met(uint32_t steps);
struct outcome spent(uint32_t steps);
struct outcome walk_refused(uint32_t number, uint32_t detail);

/*
 * Every call is refused by one of 1 to 6, whatever plan, colour, allowance, buffers, gauge, switches and reach are. A step reads c from its
 * gauge. The decision is not refused by 6 where its greater bound is kept; the least credit and the least bound are tried with 1 to 5 alone.
 */
void all_refused(const char *what, const struct model *m, uint32_t c, uint32_t b, uint32_t number, uint32_t detail);

/* How many lists a model has. */
enum { MODEL_LISTS = 6 };

/* The lists of a model. */
struct lists {
    uint8_t sources[CHARGEPLAN_ARCS_MOST], targets[CHARGEPLAN_ARCS_MOST], colours[CHARGEPLAN_ARCS_MOST], actions[CHARGEPLAN_ARCS_MOST];
    uint16_t draws[CHARGEPLAN_ARCS_MOST], gains[CHARGEPLAN_ARCS_MOST];
};

/* The switches with every arc on, and with every arc off. */
extern const struct switches all_on, all_off;

/* The switches with one arc more on, or off. */
struct switches with_on(struct switches s, size_t a);
struct switches with_off(struct switches s, size_t a);

/* The switches with all bits at or above m set, or cleared. */
struct switches with_from(struct switches s, size_t m, int set);

/* A model with start mode 0, lists of one length, up to 256, action 0 of every arc, and every arc on. */
struct model model(uint32_t n, uint32_t k, size_t arcs, const uint8_t *sources, const uint8_t *targets, const uint16_t *draws,
    const uint16_t *gains, const uint8_t *colours);

/* A model with start mode 0 and no arcs. */
struct model without_arcs(uint32_t n, uint32_t k);

/* So many arcs that change nothing, where the lists of a set, which has a bit for each, have another length. */
struct model unequal(size_t arcs, unsigned set, size_t length);

/* What a test does with a model that is refused by this number and detail. */
typedef void refusing(const char *what, const struct model *m, uint32_t number, uint64_t detail);

/* 1 and 4: a fit model with each of many wrong n and k, which are not cut down. */
void each_wrong_number(const struct model *fit, refusing *refused);

/* 3: each list in turn is shorter or longer than the others, and all are too long. */
void each_wrong_list(refusing *refused);

/* What may be wrong with a model, in the order in which it is looked at. */
enum { FAULT_MODES, FAULT_START, FAULT_LISTS, FAULT_COLOURS, FAULT_ARC, MODEL_FAULTS };

/* One mode and three arcs that change nothing, with these faults, a bit each; the arc at this place is the unfit one. */
struct model with_faults(struct lists *to, unsigned faults, size_t unfit);

/* The number of the first of some faults of a model, 1 to 5; 0 where there is none. */
uint32_t first_fault(unsigned faults);

/* The model without its last arc, if it has any; the lists are of one length. */
struct model without_last(const struct model *m);

/* Writes an arc to a place of the lists. What they cannot hold is cut off. */
void put(struct lists *to, size_t at, struct arc arc);

/* A model with start mode 0 and the first arcs of these lists. */
struct model listed(uint32_t n, uint32_t k, const struct lists *lists, size_t arcs);

/* A model with start mode 0 and these arcs, in these lists. */
struct model of_arcs(struct lists *to, uint32_t n, uint32_t k, const struct arc *arcs, size_t count);

/* One mode, and an arc for each set of k colours, whose number has their bits; no arc changes the charge. */
struct model every_colouring(struct lists *to, uint32_t k);

/* The model, which has lists of one length, with its arcs, and their switches, in another order: arc order[i] comes to place i. */
struct model reordered(const struct model *m, const uint8_t *order, struct lists *to);

/* A random number below n; the same numbers in every run. */
uint32_t below(uint32_t n);

/* A byte of barred colours; of two, one is 0. */
uint8_t random_barred(void);

/* Switches, of which the bits of no arcs are any; of two, one has all on, and in the other one of four is off. */
struct switches random_switches(void);

/* The most arcs of a small random model, and the greatest draw and gain. */
enum { SMALL_ARCS_MOST = 8, SMALL_MOVE_MOST = 6 };

/* A small model in these lists, with 4 modes or fewer, and random barred colours and switches. */
struct model random_fit_model(struct lists *lists);

/* The same; one in five has something unfit. Lists of another length have elements enough. */
struct model random_model(struct lists *lists);

/* A model with up to 64 modes and 255 arcs, and random barred colours and switches; some of the modes have no arcs. */
struct model random_large_model(struct lists *lists);

/* Gives the first arcs of the lists random draws and gains up to these; of three, one draws, one gains, and one does both. */
void random_moves(struct lists *lists, size_t arcs, uint32_t draw_most, uint32_t gain_most);

/* The model with every draw and gain so many times as great, in the second lists. */
struct model scaled(const struct model *m, uint32_t times, struct lists *to);

/* An arc that leaves the mode, most of the time; a few are not of the model. */
uint8_t random_arc(const struct model *m, uint32_t mode);

/* A plan that follows the arcs as far as it can, most of the time; its length is handed back. */
size_t random_plan(const struct model *m, uint8_t *plan, size_t most);

/* A random plan judged and walked, for a colour that may be none; whether it is feasible and accepted, and of arcs that are on. */
int random_plan_tried(const struct model *m, uint32_t c, uint32_t b);

/* Puts the numbers into a random order. */
void shuffle(uint8_t *numbers, size_t count);

/*
 * The model with the draws and gains of these weights, in these lists: draw -w, gain 0 where w is negative, else draw 0, gain w. The
 * plain reading goes by the weights.
 */
struct model by_weights(struct model m, const int16_t *weights, struct lists *to);

/* A gauge at the bound, whose total may still grow by so much, on a move that loses gain - draw there. */
void total_at_bound(const char *what, uint32_t draw, uint32_t gain, uint64_t room);

/* The models of document 01's examples, and lists that they share. */
extern const uint8_t zeros[256], g_sources[3], g_targets[3], g_colours[3];
extern const uint16_t nothing[256], g_draws[3], g_gains[3];
struct model model_a(void);
struct model model_b(void);
struct model model_e(void);
struct model model_g(void);
struct model model_j(void);

/* The five models, and the answers to them that document 01 gives, A to L, whatever the models were made from. */
struct examples {
    struct model a, b, e, g, j;
};
void check_examples(const struct examples *of);

void test_examples(void);
void test_numbers(void);
void test_lists(void);
void test_arcs(void);
void test_levels(void);
void test_buffers(void);
void test_shape(void);
void test_long(void);
void test_charges(void);
void test_search(void);
void test_long_plans(void);
void test_ring(void);
void test_groups(void);
void test_barred_colours(void);
void test_barred_bytes(void);
void test_barred_order(void);
void test_barred_long(void);
void test_barred_walk(void);
void test_barred_search(void);
void test_barred_sets(void);
void test_barred_buffers(void);
void test_barred_long_plans(void);
void test_barred_ignored(void);
void test_start(void);
void test_steps(void);
void test_extreme_steps(void);
void test_step_refusals(void);
void test_totals(void);
void test_mixed_gauges(void);
void test_other_models(void);
void test_kept_numbers(void);
void test_walk(void);
void test_walk_colours(void);
void test_no_such_colour(void);
void test_long_walks(void);
void test_header(void);
void test_dip(void);
void test_dip_of_gauge(void);
void test_draw_first(void);
void test_small_moves(void);
void test_extreme_moves(void);
void test_unfit_moves(void);
void test_search_draws(void);
void test_search_extremes(void);
void test_lone_draw(void);
void test_lone_gain(void);
void test_lone_unfit(void);
void test_exchanged(void);
void test_parts_of_weights(void);
void test_examples_by_weights(void);
void test_weight_steps(void);
void test_unfit_weights(void);
void test_equal_plans(void);
void test_read_pairs(void);
void test_read_variations(void);
void test_read_hoa_lines(void);
void test_read_dimacs_lines(void);
void test_read_blocks(void);
void test_read_disagreements(void);
void test_read_unfit(void);
void test_read_lists(void);
void test_read_order(void);
void test_read_damaged_bytes(void);
void test_read_damaged_lines(void);
void test_read_cut_texts(void);
void test_read_rows(void);
void test_read_long_texts(unsigned long lines);
void test_unfit_actions(void);
void test_examples_with_actions(void);
void test_join_pairs(void);
void test_join_empty(void);
void test_join_numbers(void);
void test_join_unequal(void);
void test_join_unfit(void);
void test_join_lone(void);
void test_join_order(void);
void test_join_sizes(void);
void test_join_rooms(void);
void test_join_last(void);
void test_two_wearers(void);
void test_barred_duties(void);
void test_join_functions(void);
void test_no_actions(void);
void test_ward_verdicts(void);
void test_ward_first(void);
void test_ward_empty(void);
void test_ward_numbers(void);
void test_ward_lists(void);
void test_ward_arcs(void);
void test_ward_order(void);
void test_ward_sizes(void);
void test_ward_barred(void);
void test_ward_plans(void);
void test_ward_long(unsigned long count);
void test_ward_functions(void);
void test_switch_bits(void);
void test_lone_switch(void);
void test_switches_ignored(void);
void test_switched_examples(void);
void test_switched_search(void);
void test_switched_colours(void);
void test_switched_plans(void);
void test_switched_refusals(void);
void test_reach_tables(void);
void test_reach_sizes(void);
void test_reach_colours(void);
void test_reach_order(void);
void test_reach_numbers(void);
void test_reach_junk(void);
void test_reach_levels(void);
void test_reach_each(void);
void test_reach_all(void);
void test_decide_examples(void);
void test_decide_loops(void);
void test_decide_sets(void);
void test_decide_large(void);
void test_decide_unfit(void);
void test_decide_levels(void);
void test_decide_products(void);
void test_decide_spaces(void);
void test_decide_order(void);
void test_decide_barred(void);
void test_decide_switches(void);
void test_least_examples(void);
void test_least_trade(void);
void test_least_each(void);
void test_least_greatest(void);
void test_least_dip(void);
void test_least_ring(void);
void test_least_unfit(void);
void test_least_levels(void);
void test_least_spaces(void);
void test_least_order(void);
void test_least_barred(void);
void test_least_switches(void);
void test_random(unsigned long models);
void test_random_large(unsigned long models);
void test_random_barred(unsigned long models);
void test_random_phases(unsigned long models);
void test_random_draws(unsigned long models);
void test_random_split(unsigned long models);
void test_random_sizes(unsigned long models);
void test_random_searches(unsigned long models);
void test_random_scaled(unsigned long models);
void test_random_weights(unsigned long models);
void test_random_large_weights(unsigned long models);
void test_random_cases(unsigned long moves);
void test_random_equal_plans(unsigned long models);
void test_random_readings(unsigned long models);
void test_random_large_readings(unsigned long models);
void test_random_damages(unsigned long texts);
void test_random_blocks(unsigned long texts);
void test_random_texts(unsigned long texts);
void test_random_actions(unsigned long models);
void test_random_joins(unsigned long models);
void test_random_large_joins(unsigned long models);
void test_random_joined_plans(unsigned long models);
void test_random_pairs(unsigned long models);
void test_random_wards(unsigned long models);
void test_random_large_wards(unsigned long models);
void test_random_switched(unsigned long models);
void test_random_reaches(unsigned long models);
void test_random_junk(unsigned long reaches_tried);
void test_random_large_reaches(unsigned long models);
void test_random_scaled_reaches(unsigned long models);
void test_random_reach_and_search(unsigned long models);
void test_random_decisions(unsigned long models);
void test_random_decisions_and_searches(unsigned long models);
void test_random_decisions_of_many_pairs(unsigned long models);
void test_random_scaled_decisions(unsigned long models);
void test_random_least_credits(unsigned long models);
void test_random_least_bounds(unsigned long models);
void test_random_leasts_and_searches(unsigned long models);
void test_random_least_pairs(unsigned long models);
void test_random_scaled_leasts(unsigned long models);

#endif
