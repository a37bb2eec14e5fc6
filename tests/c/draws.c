/*
 * Asks 4 and 10: an arc draws first and then gains, and the cases of a step. Refusal 5 of one arc is in cases.c, and random moves of whole
 * models are in random.c, sizes.c and split.c.
 */
#include "calls.h"

/* One mode with one arc, in these lists. */
static struct model one_arc(struct lists *to, uint32_t draw, uint32_t gain)
{
    struct arc arc = {0, 0, draw, gain, 0, 0};

    put(to, 0, arc);
    return listed(1, 0, to, 1);
}

/* Ask 4's move, which draws 5 and then harvests 8 and has the colour, and a move that charges 1. */
static struct model model_of_dip(struct lists *to)
{
    static const struct arc dip = {0, 0, 5, 8, 1, 0}, charge = {0, 0, 0, 1, 0, 0};

    put(to, 0, dip);
    put(to, 1, charge);
    return listed(1, 1, to, 2);
}

/* Judged and walked: the step is possible with 5 and not with less, in prefix, first and second round. */
void test_dip(void)
{
    static const uint8_t dip[] = {0}, charged[] = {1, 1, 0};
    struct lists lists;
    struct model m = model_of_dip(&lists);

    judged("dip: 3", &m, 3, 20, 0, 1, dip, 1, CHARGEPLAN_IMPOSSIBLE_STEP, 0);
    judged("dip: 4", &m, 4, 20, 0, 1, dip, 1, CHARGEPLAN_IMPOSSIBLE_STEP, 0);
    judged("dip: 5", &m, 5, 20, 0, 1, dip, 1, CHARGEPLAN_YES, 0);
    judged("dip: the bound is below the draw", &m, 4, 4, 0, 1, dip, 1, CHARGEPLAN_IMPOSSIBLE_STEP, 0);
    judged("dip: the bound is the draw", &m, 5, 5, 0, 1, dip, 1, CHARGEPLAN_YES, 0);
    judged("dip: in the prefix", &m, 3, 20, 1, 1, zeros, 2, CHARGEPLAN_IMPOSSIBLE_STEP, 0);
    judged("dip: charged in the prefix", &m, 3, 20, 2, 1, charged, 3, CHARGEPLAN_YES, 0);
    judged("dip: charged too little in the prefix", &m, 3, 20, 1, 1, charged + 1, 2, CHARGEPLAN_IMPOSSIBLE_STEP, 1);
    judged("dip: charged in the cycle", &m, 3, 20, 0, 3, charged, 3, CHARGEPLAN_YES, 0);
    judged("dip: charged too little in the cycle", &m, 2, 20, 0, 3, charged, 3, CHARGEPLAN_IMPOSSIBLE_STEP, 2);
    walked("dip: walked", &m, 3, 20, 2, 1, charged, 3, 0, 9, met(3));
    walked("dip: walked, allowance 2", &m, 3, 20, 2, 1, charged, 3, 0, 2, spent(2));
    walked("dip: walked too early", &m, 3, 20, 0, 1, dip, 1, 0, 9, walk_refused(CHARGEPLAN_IMPOSSIBLE_STEP, 0));
    lists.gains[0] = 4;
    judged("a smaller harvest: second round", &m, 5, 20, 0, 1, dip, 1, CHARGEPLAN_IMPOSSIBLE_STEP, 1);
    judged("a smaller harvest: second round after a prefix", &m, 3, 20, 2, 1, charged, 3, CHARGEPLAN_IMPOSSIBLE_STEP, 3);
    judged("a smaller harvest: each round ends lower", &m, 20, 20, 0, 1, dip, 1, CHARGEPLAN_FALLING_CYCLE, 0);
}

/* What a gauge has spilled before its step. */
enum { SPILLED = 9 };

/* A gauge with this charge cannot make the move: 15, and it is as found. */
static void too_little(const char *what, uint32_t draw, uint32_t gain, uint32_t charge, uint32_t b)
{
    struct lists lists;
    struct model m = one_arc(&lists, draw, gain);
    struct gauge g = gauge_at(&m, b, 0, charge, SPILLED);

    stepped(what, &g, &m, b, 0, CHARGEPLAN_IMPOSSIBLE_STEP, 0);
    check_gauge(what, g, gauge_at(&m, b, 0, charge, SPILLED));
}

/* A gauge with this charge makes the move to another one, and loses so much. */
static void leads_to(const char *what, uint32_t draw, uint32_t gain, uint32_t charge, uint32_t b, uint32_t to, uint32_t lost)
{
    struct lists lists;
    struct model m = one_arc(&lists, draw, gain);
    struct gauge g = gauge_at(&m, b, 0, charge, SPILLED);
    struct stop stop = {0, 0, to, SPILLED + lost};

    moved(what, &g, &m, b, stop);
}

/* A gauge that is started with 3 is refused until it is charged. */
static void test_charged_gauge(void)
{
    static const struct stop charged[] = {{1, 0, 4, 0}, {1, 0, 5, 0}}, dips[] = {{0, 0, 8, 0}, {0, 0, 10, 1}, {0, 0, 10, 4}};
    struct lists lists;
    struct model m = model_of_dip(&lists);
    struct gauge g;
    size_t i;

    started("dip: the gauge", &g, &m, 3, 10, CHARGEPLAN_YES, 0);
    for (i = 0; i < 2; i++) {
        stepped("dip: the gauge", &g, &m, 10, 0, CHARGEPLAN_IMPOSSIBLE_STEP, 0);
        moved("dip: the gauge is charged", &g, &m, 10, charged[i]);
    }
    for (i = 0; i < 3; i++)
        moved("dip: the gauge", &g, &m, 10, dips[i]);
}

/* A gauge on the dip: 15 and as found with less than 5; else to the smaller of charge + 3 and the bound, and the rest is spilled. */
void test_dip_of_gauge(void)
{
    test_charged_gauge();
    too_little("dip: a gauge with 0", 5, 8, 0, 20);
    too_little("dip: a gauge with 3", 5, 8, 3, 20);
    too_little("dip: a gauge with 4", 5, 8, 4, 20);
    too_little("dip: a gauge with 4, the bound", 5, 8, 4, 4);
    leads_to("dip: a gauge with 5", 5, 8, 5, 20, 8, 0);
    leads_to("dip: exactly to the bound", 5, 8, 5, 8, 8, 0);
    leads_to("dip: one above the bound", 5, 8, 5, 7, 7, 1);
    leads_to("dip: from the bound", 5, 8, 5, 5, 5, 3);
    leads_to("dip: from below the bound to it", 5, 8, 17, 20, 20, 0);
    leads_to("dip: from below the bound above it", 5, 8, 18, 20, 20, 1);
    leads_to("dip: from a higher bound", 5, 8, 20, 20, 20, 3);
}

/* Where the other order, gain first and then draw, would do something else. */
void test_draw_first(void)
{
    too_little("gain first would end with 6", 5, 8, 3, 20);
    too_little("gain first would end with 0", 5, 5, 0, 20);
    too_little("gain first would end with 0, from one below the draw", 5, 1, 4, 20);
    leads_to("at the bound: gain first would lose 2 and end lower", 2, 2, 10, 10, 10, 0);
    leads_to("at the bound: gain first would lose all and end with 0", 10, 10, 10, 10, 10, 0);
    leads_to("at the bound, a greater draw: gain first would lose 2", 3, 2, 10, 10, 9, 0);
    leads_to("at the bound, a greater gain: gain first would lose 3", 2, 3, 10, 10, 10, 1);
    leads_to("below the bound: gain first would lose 1", 4, 3, 8, 10, 7, 0);
    leads_to("far below the bound: no difference", 4, 3, 5, 10, 4, 0);
}

/* A move from this charge, by the case of Ask 10 that it falls under. */
static void by_case(uint32_t draw, uint32_t gain, uint32_t charge, uint32_t b)
{
    uint32_t sum = charge - draw + gain;

    if (charge < draw)
        too_little("too little charge", draw, gain, charge, b);
    else if (sum < b)
        leads_to("below the bound", draw, gain, charge, b, sum, 0);
    else if (sum == b)
        leads_to("exactly the bound", draw, gain, charge, b, b, 0);
    else
        leads_to("above the bound", draw, gain, charge, b, b, sum - b);
}

/* A move with every small gain. */
static void every_gain(uint32_t draw, uint32_t charge, uint32_t b, uint32_t most)
{
    uint32_t gain;

    for (gain = 0; gain <= most; gain++)
        by_case(draw, gain, charge, b);
}

/* Every small move from every charge under every small bound. */
void test_small_moves(void)
{
    enum { BOUND = 6, MOVE = 8 };
    uint32_t b, charge, draw;

    for (b = 0; b <= BOUND; b++)
        for (charge = 0; charge <= b; charge++)
            for (draw = 0; draw <= MOVE; draw++)
                every_gain(draw, charge, b, MOVE);
}

/* A move from the charges next to this one, as far as there are any up to the bound. */
static void next_to(uint32_t draw, uint32_t gain, int64_t charge, uint32_t b)
{
    int64_t by;

    for (by = -1; by <= 1; by++)
        if (charge + by >= 0 && charge + by <= (int64_t)b)
            by_case(draw, gain, (uint32_t)(charge + by), b);
}

/* Random moves of every size from where the case changes: the draw, and the charge that leads exactly to the bound. */
void test_random_cases(unsigned long moves)
{
    unsigned long i;

    for (i = 0; i < moves; i++) {
        uint32_t b = below(CHARGEPLAN_BOUND_MOST + 1), draw = below(b + 2), gain = below(CHARGEPLAN_GAIN_MOST + 1);

        next_to(draw, gain, draw, b);
        next_to(draw, gain, (int64_t)b + draw - gain, b);
    }
}

/* The greatest draws and gains, and totals near 2^64: what is drawn first is not lost. */
void test_extreme_moves(void)
{
    too_little("the greatest draw and gain", 10000, 10000, 8191, 8191);
    too_little("the whole battery lacks one", 8191, 10000, 8190, 8191);
    leads_to("the whole battery and the greatest gain", 8191, 10000, 8191, 8191, 8191, 1809);
    leads_to("the whole battery and back", 8191, 8191, 8191, 8191, 8191, 0);
    leads_to("the whole battery and all but one back", 8191, 8190, 8191, 8191, 8190, 0);
    leads_to("a draw of 1 and the greatest gain", 1, 10000, 1, 8191, 8191, 1809);
    leads_to("the greatest gain at the bound", 0, 10000, 8191, 8191, 8191, 10000);
    leads_to("b 0: the whole gain is lost", 0, 10000, 0, 0, 0, 10000);
    too_little("b 0: any draw", 1, 10000, 0, 0);
    total_at_bound("full total: nothing is lost", 5, 5, 0);
    total_at_bound("full total: 3 would be lost", 2, 5, 0);
    total_at_bound("room for 2: 3 would be lost", 2, 5, 2);
    total_at_bound("room for 3: 3 are lost", 2, 5, 3);
    total_at_bound("room for 9,992: 9,993 would be lost", 7, 10000, 9992);
    total_at_bound("room for 9,993: 9,993 are lost", 7, 10000, 9993);
}

/* Three arcs of these kinds; 5 names the lowest that is not fit. */
static void three_arcs(const struct arc *kinds[3])
{
    struct lists lists;
    struct model m;
    struct gauge g;
    uint32_t a, lowest = 3;

    for (a = 3; a-- > 0;) {
        put(&lists, a, *kinds[a]);
        if (kinds[a]->draw > CHARGEPLAN_DRAW_MOST || kinds[a]->gain > CHARGEPLAN_GAIN_MOST)
            lowest = a;
    }
    m = listed(1, 0, &lists, 3);
    if (lowest < 3)
        all_refused("5: the lowest draw or gain", &m, 5, 5, CHARGEPLAN_UNFIT_ARC, lowest);
    else
        started("three arcs that are fit", &g, &m, 5, 5, CHARGEPLAN_YES, 0);
}

/* 5: arcs with the greatest draw and gain, and with a draw or a gain too great, in every order. */
void test_unfit_moves(void)
{
    enum { KINDS = 5 };
    static const struct arc kinds[KINDS] = {{0, 0, CHARGEPLAN_DRAW_MOST, CHARGEPLAN_GAIN_MOST, 0, 0},
        {0, 0, CHARGEPLAN_DRAW_MOST + 1, 0, 0, 0}, {0, 0, 0, CHARGEPLAN_GAIN_MOST + 1, 0, 0}, {0, 0, UINT16_MAX, 0, 0, 0},
        {0, 0, 0, UINT16_MAX, 0, 0}};
    unsigned i;

    for (i = 0; i < KINDS * KINDS * KINDS; i++) {
        const struct arc *of[3] = {&kinds[i % KINDS], &kinds[i / KINDS % KINDS], &kinds[i / KINDS / KINDS]};

        three_arcs(of);
    }
}

/* Search with a move that has both parts: by its draw there is a plan or none. */
void test_search_draws(void)
{
    struct lists lists;
    struct model m = one_arc(&lists, 5, 8);

    refused("search: the dip with 3", &m, 3, 20, CHARGEPLAN_NO_PLAN, 0);
    refused("search: the dip with 4", &m, 4, 20, CHARGEPLAN_NO_PLAN, 0);
    found("search: the dip with 5", &m, 5, 20);
    found("search: the dip with 5, the bound", &m, 5, 5);
    m = one_arc(&lists, 20, 20);
    refused("search: the whole battery lacks one", &m, 19, 20, CHARGEPLAN_NO_PLAN, 0);
    found("search: the whole battery and back", &m, 20, 20);
    m = one_arc(&lists, 20, 19);
    refused("search: the whole battery and all but one back", &m, 20, 20, CHARGEPLAN_NO_PLAN, 0);
    m = model_of_dip(&lists);
    found("search: charged first", &m, 0, 5);
    refused("search: the bound is below the draw", &m, 4, 4, CHARGEPLAN_NO_PLAN, 0);
    lists.gains[0] = 0;
    found("search: a draw without harvest", &m, 0, 5);
}

/* Two modes, there and back: the first arc gains, the second draws. No arc can be repeated to make up for a gain read too small. */
static struct model there_and_back(struct lists *to, uint32_t gain, uint32_t draw)
{
    struct arc there = {0, 1, 0, gain, 0, 0}, back = {1, 0, draw, 0, 0, 0};

    put(to, 0, there);
    put(to, 1, back);
    return listed(2, 0, to, 2);
}

/* One arc gains, and the other one draws and has the colour. */
static struct model gain_or_draw(struct lists *to, uint32_t gain, uint32_t draw)
{
    struct arc gained = {0, 0, 0, gain, 0, 0}, drawn = {0, 0, draw, 0, 1, 0};

    put(to, 0, gained);
    put(to, 1, drawn);
    return listed(1, 1, to, 2);
}

/* Search with the largest battery of one mode, and of two. */
void test_search_extremes(void)
{
    enum { MOST = CHARGEPLAN_BOUND_MOST, OF_TWO = 4095 };
    struct lists lists;
    struct model m = one_arc(&lists, MOST, MOST);

    found("search: 8,191 drawn and back", &m, MOST, MOST);
    refused("search: 8,191 drawn of 8,190", &m, MOST - 1, MOST, CHARGEPLAN_NO_PLAN, 0);
    m = one_arc(&lists, MOST, MOST - 1);
    refused("search: 8,191 drawn, 8,190 back", &m, MOST, MOST, CHARGEPLAN_NO_PLAN, 0);
    m = one_arc(&lists, MOST, CHARGEPLAN_GAIN_MOST);
    found("search: 8,191 drawn, 10,000 back", &m, MOST, MOST);
    m = one_arc(&lists, MOST + 1, CHARGEPLAN_GAIN_MOST);
    refused("search: 8,192 drawn", &m, MOST, MOST, CHARGEPLAN_NO_PLAN, 0);
    m = one_arc(&lists, CHARGEPLAN_DRAW_MOST, CHARGEPLAN_GAIN_MOST);
    refused("search: 10,000 drawn", &m, MOST, MOST, CHARGEPLAN_NO_PLAN, 0);
    m = gain_or_draw(&lists, MOST, MOST);
    found("search: 8,191 gained, then drawn", &m, 0, MOST);
    refused("search: 8,191 gained, 8,190 of it kept", &m, 0, MOST - 1, CHARGEPLAN_NO_PLAN, 0);
    m = gain_or_draw(&lists, MOST, MOST + 1);
    refused("search: 8,191 gained, 8,192 drawn", &m, MOST, MOST, CHARGEPLAN_NO_PLAN, 0);
    m = there_and_back(&lists, OF_TWO, OF_TWO);
    found("search: 4,095 there and back", &m, 0, OF_TWO);
    refused("search: 4,095 there and back, the bound 4,094", &m, 0, OF_TWO - 1, CHARGEPLAN_NO_PLAN, 0);
    m = there_and_back(&lists, OF_TWO - 1, OF_TWO);
    refused("search: 4,094 there, 4,095 back", &m, 0, OF_TWO, CHARGEPLAN_NO_PLAN, 0);
}

/* The model with draws for gains and gains for draws. */
static struct model exchanged(const struct model *m)
{
    struct model r = *m;

    r.draws = m->gains;
    r.gains = m->draws;
    return r;
}

/* Draws and gains exchanged give other answers, in every call. */
void test_exchanged(void)
{
    static const uint8_t round[] = {0, 1}, dip[] = {0};
    static const struct stop gained = {0, 0, 8, 0};
    struct lists lists;
    struct model e = model_e(), back = exchanged(&e), m = model_of_dip(&lists), other = exchanged(&m);
    struct gauge g;

    judged("E", &e, 2, 5, 0, 2, round, 2, CHARGEPLAN_YES, 0);
    judged("E, exchanged", &back, 2, 5, 0, 2, round, 2, CHARGEPLAN_IMPOSSIBLE_STEP, 0);
    walked("dip", &m, 5, 20, 0, 1, dip, 1, 0, 9, met(1));
    walked("dip, exchanged", &other, 5, 20, 0, 1, dip, 1, 0, 9, walk_refused(CHARGEPLAN_IMPOSSIBLE_STEP, 0));
    found("dip", &m, 5, 20);
    refused("dip, exchanged", &other, 20, 20, CHARGEPLAN_NO_PLAN, 0);
    started("dip", &g, &m, 5, 20, CHARGEPLAN_YES, 0);
    stepped("dip, exchanged", &g, &other, 20, 0, CHARGEPLAN_IMPOSSIBLE_STEP, 0);
    moved("dip", &g, &m, 20, gained);
}
