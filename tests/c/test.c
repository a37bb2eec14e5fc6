/*
 * The C entries with valid, edge and broken inputs, and with random ones against the plain reading of document 01.
 *
 *     test [RANDOM [FIRST STEP]]
 *
 * RANDOM: how many random models, 200,000 where it is left out. FIRST and STEP: of the tests, numbered from 0, those with the numbers FIRST,
 * FIRST + STEP and so on; all where they are left out.
 *
 * A line for each test with its checks; the last line is 'N passed, M failed', and the exit status is 0 where none failed.
 */
#include "calls.h"

#include <stdio.h>
#include <stdlib.h>

static unsigned random_models = 200000;

static void test_random_models(void)
{
    test_random(random_models);
}

static void test_random_large_models(void)
{
    test_random_large(random_models / 200);
}

static void test_random_barred_colours(void)
{
    test_random_barred(random_models / 10);
}

static void test_random_models_of_two_phases(void)
{
    test_random_phases(random_models / 20);
}

static void test_random_draws_and_gains(void)
{
    test_random_draws(random_models / 200);
}

static void test_random_splits(void)
{
    test_random_split(random_models / 10);
}

static void test_random_plans_of_every_size(void)
{
    test_random_sizes(random_models / 4);
}

static void test_random_searches_of_every_size(void)
{
    test_random_searches(random_models / 100);
}

static void test_random_models_scaled(void)
{
    test_random_scaled(random_models / 100);
}

static void test_random_models_by_weights(void)
{
    test_random_weights(random_models / 4);
}

static void test_random_large_models_by_weights(void)
{
    test_random_large_weights(random_models / 200);
}

static void test_random_cases_of_a_step(void)
{
    test_random_cases(random_models / 4);
}

static void test_random_plans_again(void)
{
    test_random_equal_plans(random_models / 40);
}

static void test_read_texts_of_any_length(void)
{
    test_read_long_texts(random_models * 84ul);
}

static void test_random_models_read_back(void)
{
    test_random_readings(random_models / 10);
}

static void test_random_large_models_read_back(void)
{
    test_random_large_readings(random_models / 200);
}

static void test_random_damaged_texts(void)
{
    test_random_damages(random_models / 2);
}

static void test_random_blocks_of_modes(void)
{
    test_random_blocks(random_models / 4);
}

static void test_random_lines(void)
{
    test_random_texts(random_models / 4);
}

static void test_random_models_with_other_actions(void)
{
    test_random_actions(random_models / 10);
}

static void test_random_joins_of_small_models(void)
{
    test_random_joins(random_models / 2);
}

static void test_random_joins_of_large_models(void)
{
    test_random_large_joins(random_models / 100);
}

static void test_random_plans_of_joined_models(void)
{
    test_random_joined_plans(random_models / 10);
}

static void test_random_joins_over_structs(void)
{
    test_random_pairs(random_models / 50);
}

static void test_ward_of_any_length(void)
{
    test_ward_long(random_models * 84ul);
}

static void test_random_wards_of_small_models(void)
{
    test_random_wards(random_models / 2);
}

static void test_random_wards_of_large_models(void)
{
    test_random_large_wards(random_models / 20);
}

static void test_random_searches_with_arcs_off(void)
{
    test_random_switched(random_models / 200);
}

static void test_random_reaches_of_small_models(void)
{
    test_random_reaches(random_models / 10);
}

static void test_random_reaches_of_junk(void)
{
    test_random_junk(random_models / 10);
}

static void test_random_reaches_of_large_models(void)
{
    test_random_large_reaches(random_models / 400);
}

static void test_random_reaches_scaled(void)
{
    test_random_scaled_reaches(random_models / 100);
}

static void test_random_reaches_and_searches(void)
{
    test_random_reach_and_search(random_models / 40);
}

static void test_random_decisions_of_small_models(void)
{
    test_random_decisions(random_models / 4);
}

static void test_random_models_decided_and_searched(void)
{
    test_random_decisions_and_searches(random_models / 100);
}

static void test_random_models_of_many_pairs(void)
{
    test_random_decisions_of_many_pairs(random_models / 400);
}

static void test_random_decisions_scaled(void)
{
    test_random_scaled_decisions(random_models / 50);
}

static void test_random_credits_tried_one_by_one(void)
{
    test_random_least_credits(random_models / 8);
}

static void test_random_bounds_tried_one_by_one(void)
{
    test_random_least_bounds(random_models / 100);
}

static void test_random_leasts_of_many_arcs(void)
{
    test_random_leasts_and_searches(random_models / 50);
}

static void test_random_pairs_of_least_numbers(void)
{
    test_random_least_pairs(random_models / 40);
}

static void test_random_leasts_scaled(void)
{
    test_random_scaled_leasts(random_models / 40);
}

static const struct {
    const char *name;
    void (*run)(void);
} tests[] = {
    {"examples", test_examples},
    {"1, 2 and 4: numbers", test_numbers},
    {"3: lists", test_lists},
    {"5: arcs", test_arcs},
    {"6: levels", test_levels},
    {"7 to 9: buffers", test_buffers},
    {"11 to 14: shape of a plan", test_shape},
    {"11 to 13 and 15 of long plans", test_long},
    {"15 to 17: charges and colours", test_charges},
    {"search", test_search},
    {"search, long plans", test_long_plans},
    {"search, a ring of 64 modes", test_ring},
    {"search, arcs in any order", test_groups},
    {"search, equal inputs give equal plans", test_equal_plans},
    {"barred colours, 24 and 17", test_barred_colours},
    {"barred colours, every byte", test_barred_bytes},
    {"barred colours, the order of the refusals", test_barred_order},
    {"barred colours, long plans", test_barred_long},
    {"barred colours, walk", test_barred_walk},
    {"barred colours, search", test_barred_search},
    {"barred colours, search, every byte on a ring", test_barred_sets},
    {"barred colours, search, 8 and 9 go by k", test_barred_buffers},
    {"barred colours, search, long plans", test_barred_long_plans},
    {"barred colours, search, bits at or above k", test_barred_ignored},
    {"gauge, starting", test_start},
    {"gauge, document 01's examples", test_steps},
    {"gauge, the greatest gain and draw", test_extreme_steps},
    {"gauge, 6, 12, 13 and 15", test_step_refusals},
    {"gauge, 15 by the total", test_totals},
    {"gauge, 22: mixed-up gauges", test_mixed_gauges},
    {"gauge, other models with the same n, m and b", test_other_models},
    {"gauge, n, m and b are kept", test_kept_numbers},
    {"walk", test_walk},
    {"walk, colours", test_walk_colours},
    {"walk, 18", test_no_such_colour},
    {"walk, long plans", test_long_walks},
    {"draw first: the dip, judged and walked", test_dip},
    {"draw first: the dip on the gauge", test_dip_of_gauge},
    {"draw first: where gain first would differ", test_draw_first},
    {"draw first: every small move", test_small_moves},
    {"draw first: the greatest draws and gains", test_extreme_moves},
    {"draw first: 5, the lowest unfit draw or gain", test_unfit_moves},
    {"draw first: search", test_search_draws},
    {"draw first: search with the greatest draws and gains", test_search_extremes},
    {"draw first: draws and gains exchanged", test_exchanged},
    {"weights: draw and gain of each", test_parts_of_weights},
    {"weights: document 01's examples", test_examples_by_weights},
    {"weights: steps", test_weight_steps},
    {"weights: 5", test_unfit_weights},
    {"one of 255 arcs alone draws, at every place", test_lone_draw},
    {"one of 255 arcs alone gains, at every place", test_lone_gain},
    {"one of 255 arcs alone is unfit, at every place", test_lone_unfit},
    {"reading, pairs of texts", test_read_pairs},
    {"reading, lines written otherwise", test_read_variations},
    {"reading, 19: lines of the HOA text", test_read_hoa_lines},
    {"reading, 20: lines of the DIMACS text", test_read_dimacs_lines},
    {"reading, 19: blocks", test_read_blocks},
    {"reading, 21: texts that disagree", test_read_disagreements},
    {"reading, 1, 2, 4 and 5", test_read_unfit},
    {"reading, 3: lists of any lengths", test_read_lists},
    {"reading, the order of the refusals", test_read_order},
    {"reading, texts damaged at every byte", test_read_damaged_bytes},
    {"reading, texts damaged at every line", test_read_damaged_lines},
    {"reading, texts cut at every byte", test_read_cut_texts},
    {"reading, every short row in place of some words", test_read_rows},
    {"reading, long texts", test_read_texts_of_any_length},
    {"actions, 5: those above 15", test_unfit_actions},
    {"actions, document 01's examples", test_examples_with_actions},
    {"actions that are a null pointer", test_no_actions},
    {"join, pairs of arcs", test_join_pairs},
    {"join, models without arcs or pairs", test_join_empty},
    {"join, 1, 2 and 4: numbers", test_join_numbers},
    {"join, 3: lists", test_join_unequal},
    {"join, 5: arcs", test_join_unfit},
    {"join, 5: one of 255 arcs, at every place", test_join_lone},
    {"join, the order of the refusals", test_join_order},
    {"join, 23: modes, colours, arcs, draws and gains", test_join_sizes},
    {"join, 23: lists of any lengths", test_join_rooms},
    {"join, 23 is looked at last", test_join_last},
    {"join, one knee and two wearers", test_two_wearers},
    {"join, barred duties of knee and habit", test_barred_duties},
    {"join over structs, and the two arcs of a joined arc", test_join_functions},
    {"ward, every verdict", test_ward_verdicts},
    {"ward, the first other verdict and its place", test_ward_first},
    {"ward, no wearers", test_ward_empty},
    {"ward, 1 and 4 of the model", test_ward_numbers},
    {"ward, 3 of the model", test_ward_lists},
    {"ward, 5 of the model", test_ward_arcs},
    {"ward, the order of the refusals", test_ward_order},
    {"ward, start modes, credits and bounds of every size", test_ward_sizes},
    {"ward, every byte of barred colours", test_ward_barred},
    {"ward, long plans", test_ward_plans},
    {"ward, lists of any length", test_ward_of_any_length},
    {"ward over a struct", test_ward_functions},
    {"switches, which bit is which arc", test_switch_bits},
    {"switches, one of 255 arcs alone is on, or off, at every place", test_lone_switch},
    {"switches, bits at or above m", test_switches_ignored},
    {"switches, document 01's examples with any arcs on", test_switched_examples},
    {"switches, search", test_switched_search},
    {"switches, colours of arcs that are off", test_switched_colours},
    {"switches, plans of arcs that are off", test_switched_plans},
    {"switches, 5 to 10", test_switched_refusals},
    {"reach, fresh tables", test_reach_tables},
    {"reach, models and bounds of every size", test_reach_sizes},
    {"reach, colours and actions", test_reach_colours},
    {"reach, the order of the refusals", test_reach_order},
    {"reach, 12: numbers of no arcs", test_reach_numbers},
    {"reach, switchings of reaches that no call has made", test_reach_junk},
    {"reach, switchings with other levels and models", test_reach_levels},
    {"reach, each of 255 arcs off and on again", test_reach_each},
    {"reach, all arcs off and on again", test_reach_all},
    {"decision, document 01's examples scaled up", test_decide_examples},
    {"decision, loops raised to their top", test_decide_loops},
    {"decision, peaks that do not come again", test_decide_sets},
    {"decision, a ring and a chain of 64 modes", test_decide_large},
    {"decision, 1 to 5", test_decide_unfit},
    {"decision, 6: bounds up to 1,000,000", test_decide_levels},
    {"decision, 7 and 9 are not looked at", test_decide_products},
    {"decision, 8, and what is left in the space", test_decide_spaces},
    {"decision, the order of the refusals", test_decide_order},
    {"decision, barred colours", test_decide_barred},
    {"decision, switches", test_decide_switches},
    {"least credit and least bound, document 01's examples", test_least_examples},
    {"least credit and least bound, one for the other", test_least_trade},
    {"least credit and least bound, every number of small models", test_least_each},
    {"least credit and least bound, the greatest numbers", test_least_greatest},
    {"least credit and least bound, the dip", test_least_dip},
    {"least credit and least bound, a ring of 64 modes", test_least_ring},
    {"least credit and least bound, 1 to 5", test_least_unfit},
    {"least credit and least bound, 6 and 7", test_least_levels},
    {"least credit and least bound, 8, and what is left in the space", test_least_spaces},
    {"least credit and least bound, the order of the refusals", test_least_order},
    {"least credit and least bound, barred colours", test_least_barred},
    {"least credit and least bound, switches", test_least_switches},
    {"header", test_header},
    {"random models and plans", test_random_models},
    {"random models with many arcs", test_random_large_models},
    {"random models with barred colours", test_random_barred_colours},
    {"random models with barred colours, and as models of two phases", test_random_models_of_two_phases},
    {"random gauges and plans with many arcs, draws and gains of every size", test_random_draws_and_gains},
    {"random models with each arc split into draw and gain", test_random_splits},
    {"random plans, draws, gains and bounds of every size", test_random_plans_of_every_size},
    {"random searches, draws, gains and bounds of every size", test_random_searches_of_every_size},
    {"random models scaled up, and searched", test_random_models_scaled},
    {"random models and plans, by weights", test_random_models_by_weights},
    {"random models with many arcs and every weight, by weights", test_random_large_models_by_weights},
    {"random steps where the case changes", test_random_cases_of_a_step},
    {"random searches, equal inputs give equal plans", test_random_plans_again},
    {"random models printed and read back", test_random_models_read_back},
    {"random models of any size printed and read back", test_random_large_models_read_back},
    {"random damages of texts", test_random_damaged_texts},
    {"random blocks of texts", test_random_blocks_of_modes},
    {"random lines of texts", test_random_lines},
    {"random models with other actions", test_random_models_with_other_actions},
    {"random joins", test_random_joins_of_small_models},
    {"random joins with many arcs", test_random_joins_of_large_models},
    {"random joins, searched and judged", test_random_plans_of_joined_models},
    {"random joins over structs, and their pairs", test_random_joins_over_structs},
    {"random wards", test_random_wards_of_small_models},
    {"random wards with many arcs", test_random_wards_of_large_models},
    {"random searches with arcs off, and of models without them", test_random_searches_with_arcs_off},
    {"random reaches and switchings", test_random_reaches_of_small_models},
    {"random switchings of reaches that no call has made", test_random_reaches_of_junk},
    {"random reaches and switchings with many arcs", test_random_reaches_of_large_models},
    {"random reaches of models scaled up", test_random_reaches_scaled},
    {"random reaches, and searches that need their charges", test_random_reaches_and_searches},
    {"random decisions", test_random_decisions_of_small_models},
    {"random decisions, and searches of many arcs", test_random_models_decided_and_searched},
    {"random decisions of models that search refuses", test_random_models_of_many_pairs},
    {"random decisions of models scaled up", test_random_decisions_scaled},
    {"random least credits, every credit tried", test_random_credits_tried_one_by_one},
    {"random least bounds, every bound tried", test_random_bounds_tried_one_by_one},
    {"random least credits and least bounds, and searches of many arcs", test_random_leasts_of_many_arcs},
    {"random least bounds, and the least credits for them", test_random_pairs_of_least_numbers},
    {"random least credits and least bounds of models scaled up", test_random_leasts_scaled},
};

int main(int argc, char **argv)
{
    unsigned passed = 0, failed = 0;
    size_t i = 0, step = 1;

    if (argc > 1)
        random_models = (unsigned)strtoul(argv[1], NULL, 10);
    if (argc > 3) {
        i = strtoul(argv[2], NULL, 10);
        step = strtoul(argv[3], NULL, 10);
    }
    for (; i < sizeof tests / sizeof tests[0]; i += step) {
        unsigned long checks_before = checks, failures_before = failures;

        tests[i].run();
        printf("C %s: %lu checks, %lu failed\n", tests[i].name, checks - checks_before, failures - failures_before);
        if (failures == failures_before)
            passed++;
        else
            failed++;
    }
    printf("%u passed, %u failed\n", passed, failed);
    return failed == 0 ? 0 : 1;
}
