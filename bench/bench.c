/*
 * The benchmark: the library against the same algorithm in C, compiled with -O2 and with -O3, and search and the decision also against two
 * other ways to tell whether there is a plan. Answers and buffers are compared first, and a difference ends the run; then each is timed. A
 * second table has the least credit and the least bound beside one search and one decision of the same models, with the number of decisions
 * that they make. It prints times and ratios and asserts no time.
 */
#define _POSIX_C_SOURCE 199309L

#include <stdbool.h>
#include <stdio.h>
#include <stdlib.h>
#include <string.h>
#include <time.h>

#include "chargeplan.h"
#include "inputs.h"
#include "reference.h"
#include "rivals.h"

enum {
    VERSIONS = 5,
    SET_MOST = 16,
    REPETITIONS = 15,
    SAMPLE_MICROSECONDS = 5000,
    TRIES_MOST = 100000,
    WORK_WORDS = CHARGEPLAN_WORK_WORDS_MOST,
    DECIDE_WORDS = CHARGEPLAN_DECIDE_WORDS_MOST,
    PLAN_BYTES = CHARGEPLAN_PLAN_BYTES_MOST
};

/* The entries of the library or of a reference; or a rival, which has none of them. */
struct version {
    const char *name;
    search_entry *search;
    judge_entry *judge;
    read_entry *read;
    join_entry *join;
    ward_entry *ward;
    reach_start_entry *reach_start;
    reach_switch_entry *reach_switch;
    decide_entry *decide;
    least_entry *least_credit;
    least_entry *least_bound;
    rival_entry *rival;
};

/*
 * A set of inputs of one kind that have the same number as answer. Plans to be judged have `length` arcs. Texts to be read have `comments`
 * comments and the colours of each arc `times` times. Models to be decided have the bound `b`.
 */
struct family {
    const char *name;
    uint64_t (*call)(const struct version *version, const struct input *in);
    void (*make)(struct input *in);
    size_t count;
    uint32_t number;
    uint32_t length;
    size_t comments;
    size_t times;
    uint32_t b;
};

static const struct version versions[VERSIONS] = {
    {"library", chargeplan_search, chargeplan_judge, chargeplan_read, chargeplan_join, chargeplan_ward, chargeplan_reach_start,
     chargeplan_reach_switch, chargeplan_decide, chargeplan_least_credit, chargeplan_least_bound, NULL},
    {"C -O2", reference_o2_search, reference_o2_judge, reference_o2_read, reference_o2_join, reference_o2_ward,
     reference_o2_reach_start, reference_o2_reach_switch, reference_o2_decide, reference_o2_least_credit, reference_o2_least_bound, NULL},
    {"C -O3", reference_o3_search, reference_o3_judge, reference_o3_read, reference_o3_join, reference_o3_ward,
     reference_o3_reach_start, reference_o3_reach_switch, reference_o3_decide, reference_o3_least_credit, reference_o3_least_bound, NULL},
    {"Algorithm 1", NULL, NULL, NULL, NULL, NULL, NULL, NULL, NULL, NULL, NULL, algorithm_1},
    {"plain search", NULL, NULL, NULL, NULL, NULL, NULL, NULL, NULL, NULL, NULL, search_configurations},
};

/* The lists that reading and the join fill, and the numbers that they answer. */
struct filled {
    uint8_t sources[CHARGEPLAN_ARCS_MOST];
    uint8_t targets[CHARGEPLAN_ARCS_MOST];
    uint8_t colours[CHARGEPLAN_ARCS_MOST];
    uint8_t actions[CHARGEPLAN_ARCS_MOST];
    uint16_t draws[CHARGEPLAN_ARCS_MOST];
    uint16_t gains[CHARGEPLAN_ARCS_MOST];
    uint32_t n;
    uint32_t start;
    uint32_t k;
    uint32_t m;
};

/*
 * Allocated once: the inputs of a family, their habits, their plans to be judged, their texts, their wearers, the buffers of search, the
 * working space of the decision, the lists to be filled, the reach that was made last, and what the library left in these.
 */
static struct input inputs[SET_MOST], habits[SET_MOST];
static uint8_t judged[SET_MOST][CHARGEPLAN_PLAN_MOST];
static char hoa[SET_MOST][TEXT_MOST], dimacs[SET_MOST][TEXT_MOST];
static struct chargeplan_wearer wearers[SET_MOST][WEARERS], library_wearers[WEARERS];
static uint16_t work[WORK_WORDS], library_work[WORK_WORDS];
static uint8_t plan[PLAN_BYTES], library_plan[PLAN_BYTES];
static uint32_t decide_work[DECIDE_WORDS], library_decide_work[DECIDE_WORDS];
static struct filled filled, library_filled;
static struct chargeplan_reach reach, library_reach;

static void fail(const struct family *family, const char *what)
{
    fprintf(stderr, "%s: %s\n", family->name, what);
    exit(1);
}

static uint64_t call_rival(const struct version *version, const struct input *in)
{
    struct chargeplan_model m = model_of_input(in);

    return version->rival(&m, in->c, in->b, in->barred, in->on);
}

static uint64_t call_search(const struct version *version, const struct input *in)
{
    if (version->rival != NULL)
        return call_rival(version, in);
    return version->search(in->n, in->start, in->k, in->sources, in->arcs, in->targets, in->arcs, in->draws, in->arcs,
                           in->gains, in->arcs, in->colours, in->arcs, in->actions, in->arcs, in->c, in->b, in->barred, in->on[0],
                           in->on[1], in->on[2], in->on[3], work, chargeplan_work_words(in->n, in->k, in->b), plan,
                           chargeplan_plan_bytes(in->n, in->k, in->b));
}

static uint64_t call_decide(const struct version *version, const struct input *in)
{
    if (version->rival != NULL)
        return call_rival(version, in);
    return version->decide(in->n, in->start, in->k, in->sources, in->arcs, in->targets, in->arcs, in->draws, in->arcs,
                           in->gains, in->arcs, in->colours, in->arcs, in->actions, in->arcs, in->c, in->b, in->barred, in->on[0],
                           in->on[1], in->on[2], in->on[3], decide_work, chargeplan_decide_words(in->n, in->k));
}

static uint64_t call_least_credit(const struct version *version, const struct input *in)
{
    return version->least_credit(in->n, in->start, in->k, in->sources, in->arcs, in->targets, in->arcs, in->draws, in->arcs,
                                 in->gains, in->arcs, in->colours, in->arcs, in->actions, in->arcs, in->b, in->barred, in->on[0],
                                 in->on[1], in->on[2], in->on[3], work, chargeplan_work_words(in->n, in->k, in->b));
}

static uint64_t call_least_bound(const struct version *version, const struct input *in)
{
    return version->least_bound(in->n, in->start, in->k, in->sources, in->arcs, in->targets, in->arcs, in->draws, in->arcs,
                                in->gains, in->arcs, in->colours, in->arcs, in->actions, in->arcs, in->c, in->barred, in->on[0],
                                in->on[1], in->on[2], in->on[3], work, chargeplan_least_bound_words(in->n, in->k));
}

static uint64_t call_judge(const struct version *version, const struct input *in)
{
    return version->judge(in->n, in->start, in->k, in->sources, in->arcs, in->targets, in->arcs, in->draws, in->arcs,
                          in->gains, in->arcs, in->colours, in->arcs, in->actions, in->arcs, in->c, in->b, in->barred, in->p,
                          in->q, in->plan, (size_t)in->p + in->q);
}

/* Keeps the numbers that a call which fills lists answers, and returns its number and detail as the other calls have them. */
static uint64_t keep_numbers(struct chargeplan_reading reading)
{
    filled.n = reading.n;
    filled.start = reading.start;
    filled.k = reading.k;
    filled.m = reading.m;
    return reading.number | reading.detail << 8;
}

enum { ROOM = CHARGEPLAN_ARCS_MOST };

static uint64_t call_read(const struct version *version, const struct input *in)
{
    struct filled *f = &filled;
    return keep_numbers(version->read((const uint8_t *)in->hoa, in->hoa_length, (const uint8_t *)in->dimacs, in->dimacs_length,
                                      f->sources, ROOM, f->targets, ROOM, f->draws, ROOM, f->gains, ROOM, f->colours, ROOM,
                                      f->actions, ROOM));
}

static uint64_t call_join(const struct version *version, const struct input *in)
{
    struct filled *f = &filled;
    const struct input *habit = in->habit;
    return keep_numbers(version->join(in->n, in->start, in->k, in->sources, in->arcs, in->targets, in->arcs, in->draws, in->arcs,
                                      in->gains, in->arcs, in->colours, in->arcs, in->actions, in->arcs, habit->n, habit->start,
                                      habit->k, habit->sources, habit->arcs, habit->targets, habit->arcs, habit->draws, habit->arcs,
                                      habit->gains, habit->arcs, habit->colours, habit->arcs, habit->actions, habit->arcs,
                                      f->sources, ROOM, f->targets, ROOM, f->draws, ROOM, f->gains, ROOM, f->colours, ROOM,
                                      f->actions, ROOM));
}

static uint64_t call_ward(const struct version *version, const struct input *in)
{
    struct chargeplan_warded warded =
        version->ward(in->wearers, in->wearers_length, in->n, in->k, in->sources, in->arcs, in->targets, in->arcs, in->draws,
                      in->arcs, in->gains, in->arcs, in->colours, in->arcs, in->actions, in->arcs, in->barred, in->p, in->q,
                      in->plan, (size_t)in->p + in->q);
    return warded.number | warded.detail << 8;
}

/* Keeps the reach, and returns the answer. */
static uint64_t keep_reach(struct chargeplan_reached reached)
{
    reach = reached.reach;
    return reached.answer;
}

static uint64_t call_reach(const struct version *version, const struct input *in)
{
    return keep_reach(version->reach_start(in->n, in->start, in->k, in->sources, in->arcs, in->targets, in->arcs, in->draws, in->arcs,
                                           in->gains, in->arcs, in->colours, in->arcs, in->actions, in->arcs, in->c, in->b,
                                           in->on[0], in->on[1], in->on[2], in->on[3]));
}

static uint64_t switch_to(const struct version *version, const struct input *in, uint8_t on)
{
    return keep_reach(version->reach_switch(in->reach, in->n, in->start, in->k, in->sources, in->arcs, in->targets, in->arcs,
                                            in->draws, in->arcs, in->gains, in->arcs, in->colours, in->arcs, in->actions, in->arcs,
                                            in->c, in->b, in->switched, on));
}

static uint64_t call_switch(const struct version *version, const struct input *in)
{
    return switch_to(version, in, 0);
}

/* Switches the arc to what it is. */
static uint64_t call_switch_to_same(const struct version *version, const struct input *in)
{
    return switch_to(version, in, 1);
}

static const struct family families[] = {
    {"search, random, 64 modes, 255 arcs, b 127, with a plan", call_search, make_64_modes, 16, 0, 0, 0, 0, 0},
    {"search, random, 64 modes, 255 arcs, b 127, without", call_search, make_64_modes, 16, 10, 0, 0, 0, 0},
    {"search, chain of 64 modes with +1 loops, b 127, without", call_search, make_chain, 1, 10, 0, 0, 0, 0},
    {"search, document 001's figure 6, b 60, with a plan", call_search, make_figure_6, 1, 0, 0, 0, 0, 0},
    {"search, ring of 64 modes, 255 arcs, b 127, without", call_search, make_ring, 1, 10, 0, 0, 0, 0},
    {"search, random, 8 modes, 64 arcs, b 1,023, with a plan", call_search, make_8_modes, 16, 0, 0, 0, 0, 0},
    {"search, random, 8 modes, 64 arcs, b 1,023, without", call_search, make_8_modes, 16, 10, 0, 0, 0, 0},
    {"search, 1 mode, 255 arcs, b 8,191, k 0, with a plan", call_search, make_one_mode, 16, 0, 0, 0, 0, 0},
    {"search, 1 mode, 255 arcs, b 8,191, k 4, with a plan", call_search, make_one_mode_colours, 16, 0, 0, 0, 0, 0},
    {"search, 1 mode, 255 arcs, b 8,191, k 1, without", call_search, make_one_mode_climb, 4, 10, 0, 0, 0, 0},
    {"judging, 1 arc", call_judge, make_plan, 16, 0, 1, 0, 0, 0},
    {"judging, 255 arcs", call_judge, make_plan, 16, 0, 255, 0, 0, 0},
    {"judging, 4,000 arcs", call_judge, make_plan, 16, 0, 4000, 0, 0, 0},
    {"judging, 65,000 arcs", call_judge, make_plan, 16, 0, 65000, 0, 0, 0},
    {"judging, 65,000 arcs, many steps cut off at the bound", call_judge, make_steep_plan, 16, 0, 65000, 0, 0, 0},
    {"search, 64 modes, 255 arcs with both parts, with a plan", call_search, make_64_modes_both, 16, 0, 0, 0, 0, 0},
    {"judging, 65,000 arcs with both parts", call_judge, make_plan_both, 16, 0, 65000, 0, 0, 0},
    {"judging, 65,000 arcs, below, exactly and above the bound", call_judge, make_low_bound_plan, 16, 0, 65000, 0, 0, 0},
    {"search, 64 modes, 255 arcs, a colour barred, with a plan", call_search, make_64_modes_barred, 16, 0, 0, 0, 0, 0},
    {"judging, 65,000 arcs, a colour barred", call_judge, make_plan_barred, 16, 0, 65000, 0, 0, 0},
    {"reading, 64 modes, 255 arcs, sources ascending", call_read, make_model_with_texts, 16, 0, 0, 0, 1, 0},
    {"reading, the same with 1,000 comments of 64 bytes", call_read, make_model_with_texts, 4, 0, 0, 1000, 1, 0},
    {"reading, the same with 2,000 comments", call_read, make_model_with_texts, 4, 0, 0, 2000, 1, 0},
    {"reading, the same with 4,000 comments", call_read, make_model_with_texts, 4, 0, 0, 4000, 1, 0},
    {"reading, the same with each colour 100 times", call_read, make_model_with_texts, 4, 0, 0, 0, 100, 0},
    {"reading, the same with each colour 200 times", call_read, make_model_with_texts, 4, 0, 0, 0, 200, 0},
    {"reading, the same with each colour 400 times", call_read, make_model_with_texts, 4, 0, 0, 0, 400, 0},
    {"reading, 64 modes, 255 arcs, sources descending", call_read, make_descending_model, 16, 0, 0, 0, 1, 0},
    {"reading, the same with each colour 100 times", call_read, make_descending_model, 4, 0, 0, 0, 100, 0},
    {"reading, the same with each colour 200 times", call_read, make_descending_model, 4, 0, 0, 0, 200, 0},
    {"reading, the same with each colour 400 times", call_read, make_descending_model, 4, 0, 0, 0, 400, 0},
    {"join, 255 by 255 arcs, 255 pairs written", call_join, make_large_join, 16, 0, 0, 0, 0, 0},
    {"join, 12 by 4 arcs, 12 pairs written", call_join, make_small_join, 16, 0, 0, 0, 0, 0},
    {"ward, 1,000 wearers, 255 arcs, a plan of 64 arcs", call_ward, make_ward, 16, 0, 64, 0, 0, 0},
    {"ward, 1,000 wearers, 255 arcs, a plan of 640 arcs", call_ward, make_ward, 16, 0, 640, 0, 0, 0},
    {"ward, 1,000 wearers with 6: the checks of 255 arcs alone", call_ward, make_ward_of_sixes, 16, 6, 64, 0, 0, 0},
    {"search, 64 modes, 255 arcs, one in four off, with a plan", call_search, make_64_modes_off, 16, 0, 0, 0, 0, 0},
    {"reach, random, 64 modes, 255 arcs, b 127", call_reach, make_reach, 16, 0, 0, 0, 0, 0},
    {"reach, the same, b 8,191", call_reach, make_far_reach, 16, 0, 0, 0, 0, 0},
    {"search for the peaks alone, the same, b 127", call_search, make_reach, 16, 10, 0, 0, 0, 0},
    {"reach, chain of 64 modes with +1 loops, b 127", call_reach, make_reach_chain, 1, 0, 0, 0, 0, 0},
    {"reach, the same, b 8,191", call_reach, make_far_reach_chain, 1, 0, 0, 0, 0, 0},
    {"search for the peaks alone, the same, b 127", call_search, make_reach_chain, 1, 10, 0, 0, 0, 0},
    {"reach, ring of 64 modes, 255 arcs, b 127", call_reach, make_reach_ring, 1, 0, 0, 0, 0, 0},
    {"reach, the same, b 8,191", call_reach, make_far_reach_ring, 1, 0, 0, 0, 0, 0},
    {"search for the peaks alone, the same, b 127", call_search, make_reach_ring, 1, 10, 0, 0, 0, 0},
    {"switching an arc off, random, 64 modes, 255 arcs, b 127", call_switch, make_switching, 16, 0, 0, 0, 0, 0},
    {"switching, the same, b 8,191", call_switch, make_far_switching, 16, 0, 0, 0, 0, 0},
    {"switching to what it is: the checks of 255 arcs alone", call_switch_to_same, make_switching, 16, 0, 0, 0, 0, 0},
    {"search, 64 modes, 255 arcs, a colour missing, without", call_search, make_missing, 4, 10, 0, 0, 0, 0},
    {"search, 64 modes, 255 arcs, poor, without", call_search, make_poor, 16, 10, 0, 0, 0, 0},
    {"search, 64 modes, 255 arcs, losing, without", call_search, make_losing, 4, 10, 0, 0, 0, 0},
};

/* The shapes of models that are decided, each with every one of the bounds: the times are to be seen not to grow with it. */
static const struct family shapes[] = {
    {"decision, random, 64 modes, 255 arcs, with a plan", call_decide, make_decided, 16, 0, 0, 0, 0, 0},
    {"decision, random, 64 modes, 255 arcs, without", call_decide, make_decided, 16, 10, 0, 0, 0, 0},
    {"decision, the same, a colour missing, without", call_decide, make_decided_missing, 4, 10, 0, 0, 0, 0},
    {"decision, the same, losing, without", call_decide, make_decided_losing, 4, 10, 0, 0, 0, 0},
    {"decision, chain of +1 loops, without", call_decide, make_decided_chain, 1, 10, 0, 0, 0, 0},
    {"decision, ring that gains 1, with a plan", call_decide, make_decided_ring, 1, 0, 0, 0, 0, 0},
    {"decision, document 001's figure 6, with a plan", call_decide, make_decided_figure_6, 1, 0, 0, 0, 0, 0},
    {"decision, 1 mode, 255 arcs, without", call_decide, make_decided_climb, 4, 10, 0, 0, 0, 0},
    {"decision, modes in a row, without", call_decide, make_decided_row, 1, 10, 0, 0, 0, 0},
};
static const uint32_t bounds[] = {127, 8191, 100000, 1000000};

/* Models for the least credit and for the least bound; search of such a model has the same number as answer. */
static const struct family leasts[] = {
    {"least credit, random, 64 modes, 255 arcs, b 127, with one", call_least_credit, make_64_modes, 16, 0, 0, 0, 0, 0},
    {"least credit, random, 64 modes, 255 arcs, b 127, without", call_least_credit, make_64_modes, 16, 10, 0, 0, 0, 0},
    {"least credit, chain of +1 loops, b 127, without", call_least_credit, make_chain, 1, 10, 0, 0, 0, 0},
    {"least credit, document 001's figure 6, b 60, with one", call_least_credit, make_figure_6, 1, 0, 0, 0, 0, 0},
    {"least credit, ring of 64 modes, b 127, without", call_least_credit, make_ring, 1, 10, 0, 0, 0, 0},
    {"least credit, random, 8 modes, 64 arcs, b 1,023, with one", call_least_credit, make_8_modes, 16, 0, 0, 0, 0, 0},
    {"least credit, random, 8 modes, 64 arcs, b 1,023, without", call_least_credit, make_8_modes, 16, 10, 0, 0, 0, 0},
    {"least credit, 1 mode, 255 arcs, b 8,191, k 4, with one", call_least_credit, make_one_mode_colours, 16, 0, 0, 0, 0, 0},
    {"least credit, 1 mode, 255 arcs, b 8,191, k 1, without", call_least_credit, make_one_mode_climb, 4, 10, 0, 0, 0, 0},
    {"least credit, 64 modes, arcs with both parts, with one", call_least_credit, make_64_modes_both, 16, 0, 0, 0, 0, 0},
    {"least bound, random, 64 modes, 255 arcs, with one", call_least_bound, make_64_modes, 16, 0, 0, 0, 0, 0},
    {"least bound, random, 64 modes, 255 arcs, without", call_least_bound, make_64_modes, 16, 10, 0, 0, 0, 0},
    {"least bound, chain of +1 loops, without", call_least_bound, make_chain, 1, 10, 0, 0, 0, 0},
    {"least bound, document 001's figure 6, with one", call_least_bound, make_figure_6, 1, 0, 0, 0, 0, 0},
    {"least bound, ring of 64 modes, without", call_least_bound, make_ring, 1, 10, 0, 0, 0, 0},
    {"least bound, random, 8 modes, 64 arcs, with one", call_least_bound, make_8_modes, 16, 0, 0, 0, 0, 0},
    {"least bound, random, 8 modes, 64 arcs, without", call_least_bound, make_8_modes, 16, 10, 0, 0, 0, 0},
    {"least bound, 1 mode, 255 arcs, k 4, with one", call_least_bound, make_one_mode_colours, 16, 0, 0, 0, 0, 0},
    {"least bound, 1 mode, 255 arcs, k 1, without", call_least_bound, make_one_mode_climb, 4, 10, 0, 0, 0, 0},
    {"least bound, 64 modes, arcs with both parts, with one", call_least_bound, make_64_modes_both, 16, 0, 0, 0, 0, 0},
};
enum { LEASTS = sizeof leasts / sizeof leasts[0] };

/* A least credit or a least bound beside others on the same models: times of the library, and the decisions of a call. */
struct beside {
    double call;
    double search;
    double decision;
    double decisions; /* the mean */
    uint32_t decisions_most;
};

/* The same junk in the buffers before each comparison and each sample. */
static void fill_buffers(void)
{
    for (size_t i = 0; i < WORK_WORDS; i++)
        work[i] = (uint16_t)(i * 40503 + 1);
    for (size_t i = 0; i < DECIDE_WORDS; i++)
        decide_work[i] = (uint32_t)(i * 2654435761U + 1);
    for (size_t i = 0; i < PLAN_BYTES; i++)
        plan[i] = (uint8_t)(i * 167 + 1);
    memset(&filled, 0xa5, sizeof filled);
    memset(&reach, 0xa5, sizeof reach);
    for (size_t i = 0; i < SET_MOST; i++)
        for (size_t w = 0; w < WEARERS; w++)
            wearers[i][w].verdict = 0xa5;
}

static bool is_least(const struct family *family)
{
    return family->call == call_least_credit || family->call == call_least_bound;
}

/* Whether the answer is the family's; search has to answer for a least credit or a least bound likewise. */
static bool is_of_family(const struct family *family, const struct input *in)
{
    return chargeplan_number(family->call(&versions[0], in)) == family->number &&
           (!is_least(family) || chargeplan_number(call_search(&versions[0], in)) == family->number);
}

/* Makes each input until the answer is the family's. */
static void make_inputs(const struct family *family)
{
    for (size_t i = 0; i < family->count; i++) {
        struct input *in = &inputs[i];
        size_t tries = 0;
        in->p = family->length / 4;
        in->q = family->length - in->p;
        in->plan = judged[i];
        in->hoa = hoa[i];
        in->dimacs = dimacs[i];
        in->habit = &habits[i];
        in->wearers = wearers[i];
        do {
            if (tries++ == TRIES_MOST)
                fail(family, "no such input was made");
            in->b = family->b;
            family->make(in);
            if (family->times > 0)
                print_texts(in, family->comments, family->times);
        } while (!is_of_family(family, in));
    }
}

/* Whether all wearers are as the library left them; what stands behind a verdict does not count. */
static bool same_wearers(const struct input *in)
{
    for (size_t i = 0; i < in->wearers_length; i++) {
        const struct chargeplan_wearer *w = &in->wearers[i], *of_library = &library_wearers[i];
        if (w->start != of_library->start || w->c != of_library->c || w->b != of_library->b || w->verdict != of_library->verdict)
            return false;
    }
    return true;
}

/*
 * Whether a version has something to answer for a family: the rivals tell whether there is a plan, and the plain search does so for models
 * that search takes.
 */
static bool takes_part(const struct version *version, const struct family *family)
{
    if (version->rival == NULL)
        return true;
    if (family->call != call_search && family->call != call_decide)
        return false;
    return version->rival != search_configurations || inputs[0].n * (inputs[0].b + 1) <= CHARGEPLAN_PRODUCT_MOST;
}

/* Compares what the rivals tell with the number that the library answers. */
static void compare_rivals(const struct family *family, const struct input *in, uint64_t answer)
{
    for (size_t v = 0; v < VERSIONS; v++)
        if (versions[v].rival != NULL && takes_part(&versions[v], family) &&
            family->call(&versions[v], in) != chargeplan_number(answer))
            fail(family, "a rival's answer differs");
}

/* Compares answers, plan buffers, working spaces, filled lists, wearers and reaches of the references with the library's. */
static void compare(const struct family *family, const struct input *in)
{
    fill_buffers();
    uint64_t answer = family->call(&versions[0], in);
    compare_rivals(family, in, answer);
    memcpy(library_work, work, sizeof work);
    memcpy(library_decide_work, decide_work, sizeof decide_work);
    memcpy(library_plan, plan, sizeof plan);
    memcpy(&library_filled, &filled, sizeof filled);
    memcpy(library_wearers, in->wearers, sizeof library_wearers);
    library_reach = reach;
    for (size_t v = 1; v < VERSIONS && versions[v].rival == NULL; v++) {
        fill_buffers();
        if (family->call(&versions[v], in) != answer)
            fail(family, "answers differ");
        if (memcmp(library_work, work, sizeof work) != 0 || memcmp(library_decide_work, decide_work, sizeof decide_work) != 0)
            fail(family, "working spaces differ");
        if (memcmp(library_plan, plan, sizeof plan) != 0)
            fail(family, "plan buffers differ");
        if (memcmp(&library_filled, &filled, sizeof filled) != 0)
            fail(family, "filled lists differ");
        if (!same_wearers(in))
            fail(family, "wearers differ");
        if (memcmp(&library_reach, &reach, sizeof reach) != 0)
            fail(family, "reaches differ");
    }
}

static double microseconds(void)
{
    struct timespec now;
    clock_gettime(CLOCK_MONOTONIC, &now);
    return (double)now.tv_sec * 1e6 + (double)now.tv_nsec / 1e3;
}

/* The time of some rounds over the inputs of a family. */
static double sample(const struct family *family, const struct version *version, size_t rounds)
{
    fill_buffers();
    double before = microseconds();
    for (size_t round = 0; round < rounds; round++)
        for (size_t i = 0; i < family->count; i++)
            family->call(version, &inputs[i]);
    return microseconds() - before;
}

/* A version that is timed on a family: the rounds of a sample, 0 where it takes no part, and the best time per call. */
struct timing {
    const struct family *family;
    const struct version *version;
    size_t rounds;
    double best;
};

/* Finds the best times. The timings take turns, each with rounds enough for some milliseconds. */
static void take_turns(struct timing *timings, size_t count)
{
    for (struct timing *t = timings; t < timings + count; t++)
        while (t->rounds > 0 && sample(t->family, t->version, t->rounds) < SAMPLE_MICROSECONDS)
            t->rounds *= 2;
    for (size_t repetition = 0; repetition < REPETITIONS; repetition++)
        for (struct timing *t = timings; t < timings + count; t++) {
            if (t->rounds == 0)
                continue;
            double time = sample(t->family, t->version, t->rounds) / (double)(t->rounds * t->family->count);
            if (repetition == 0 || time < t->best)
                t->best = time;
        }
}

/* Writes the best time per call of each version, 0 for one that takes no part. */
static void measure(const struct family *family, double best[VERSIONS])
{
    struct timing timings[VERSIONS];
    for (size_t v = 0; v < VERSIONS; v++)
        timings[v] = (struct timing){family, &versions[v], takes_part(&versions[v], family), 0};
    take_turns(timings, VERSIONS);
    for (size_t v = 0; v < VERSIONS; v++)
        best[v] = timings[v].best;
}

static void print_heading(void)
{
    printf("%-60s %6s", "best time per call, microseconds", "inputs");
    for (size_t v = 0; v < VERSIONS; v++)
        printf(" %12s", versions[v].name);
    for (size_t v = 1; v < VERSIONS; v++)
        printf("  library / %-12s", versions[v].name);
    printf("\n");
}

/* A number in so many places, or a stroke where it is 0. */
static void print_number(int places, double number)
{
    if (number > 0)
        printf(" %*.*f", places, number < 0.1 ? 4 : 2, number);
    else
        printf(" %*s", places, "-");
}

static void print_row(const struct family *family, const double best[VERSIONS])
{
    printf("%-60s %6zu", family->name, family->count);
    for (size_t v = 0; v < VERSIONS; v++)
        print_number(12, best[v]);
    for (size_t v = 1; v < VERSIONS; v++)
        print_number(23, best[v] > 0 ? best[0] / best[v] : 0);
    printf("\n");
    fflush(stdout);
}

static void run_family(const struct family *family)
{
    double best[VERSIONS];
    make_inputs(family);
    for (size_t i = 0; i < family->count; i++)
        compare(family, &inputs[i]);
    measure(family, best);
    print_row(family, best);
}

/* A shape with each of the bounds, and with the same random numbers. */
static void run_shape(const struct family *shape)
{
    for (size_t i = 0; i < sizeof bounds / sizeof bounds[0]; i++) {
        char name[80];
        struct family family = *shape;
        restart_random();
        snprintf(name, sizeof name, "%s, b %u", shape->name, (unsigned)bounds[i]);
        family.name = name;
        family.b = bounds[i];
        run_family(&family);
    }
}

/* Times the calls of a family, searches and decisions of the same inputs, all of the library. */
static void measure_beside(const struct family *family, struct beside *beside)
{
    struct family search = *family, decision = *family;
    struct timing timings[] = {{family, &versions[0], 1, 0}, {&search, &versions[0], 1, 0}, {&decision, &versions[0], 1, 0}};
    search.call = call_search;
    decision.call = call_decide;
    take_turns(timings, sizeof timings / sizeof timings[0]);
    beside->call = timings[0].best;
    beside->search = timings[1].best;
    beside->decision = timings[2].best;
}

/* Counts the decisions that the calls of a family make, in the reference. */
static void count_decisions(const struct family *family, struct beside *beside)
{
    uint32_t all = 0;
    beside->decisions_most = 0;
    for (size_t i = 0; i < family->count; i++) {
        reference_o2_decisions = 0;
        family->call(&versions[1], &inputs[i]);
        all += reference_o2_decisions;
        if (reference_o2_decisions > beside->decisions_most)
            beside->decisions_most = reference_o2_decisions;
    }
    beside->decisions = (double)all / (double)family->count;
}

static void run_least(const struct family *family, struct beside *beside)
{
    run_family(family);
    measure_beside(family, beside);
    count_decisions(family, beside);
}

/* The second table: what a call costs in units of one search and of one decision. */
static void print_beside(const struct beside besides[LEASTS])
{
    printf("\n%-60s %6s %12s %12s %12s %15s %16s %10s %8s\n", "best time per call of the library, microseconds", "inputs", "call",
           "search", "decision", "call / search", "call / decision", "decisions", "at most");
    for (size_t f = 0; f < LEASTS; f++) {
        const struct beside *b = &besides[f];
        printf("%-60s %6zu", leasts[f].name, leasts[f].count);
        print_number(12, b->call);
        print_number(12, b->search);
        print_number(12, b->decision);
        print_number(15, b->call / b->search);
        print_number(16, b->call / b->decision);
        printf(" %10.1f %8u\n", b->decisions, (unsigned)b->decisions_most);
    }
}

int main(void)
{
    struct beside besides[LEASTS];
    print_heading();
    restart_random();
    for (size_t f = 0; f < sizeof families / sizeof families[0]; f++)
        run_family(&families[f]);
    for (size_t f = 0; f < sizeof shapes / sizeof shapes[0]; f++)
        run_shape(&shapes[f]);
    restart_random();
    for (size_t f = 0; f < LEASTS; f++)
        run_least(&leasts[f], &besides[f]);
    print_beside(besides);
    return 0;
}
