#include "inputs.h"

#include <stdio.h>

static uint64_t state;

void restart_random(void)
{
    state = 0x9e3779b97f4a7c15U;
}

/* A random number of 32 bits (xorshift64*). */
static uint32_t random_word(void)
{
    state ^= state >> 12;
    state ^= state << 25;
    state ^= state >> 27;
    return (uint32_t)(state * 0x2545f4914f6cdd1dU >> 32);
}

static uint32_t below(uint32_t count)
{
    return (uint32_t)((uint64_t)random_word() * count >> 32);
}

static int16_t between(int32_t least, int32_t most)
{
    return (int16_t)(least + (int32_t)below((uint32_t)(most - least + 1)));
}

/* A colour byte: each of k colours with a chance of one in `rarity`. */
static uint8_t make_colours(uint32_t k, uint32_t rarity)
{
    uint32_t colours = 0;

    for (uint32_t j = 0; j < k; j++)
        if (below(rarity) == 0)
            colours |= 1U << j;
    return (uint8_t)colours;
}

static void set_numbers(struct input *in, uint32_t n, uint32_t k, uint32_t c, uint32_t b)
{
    in->n = n;
    in->start = 0;
    in->k = k;
    in->arcs = 0;
    in->c = c;
    in->b = b;
    in->barred = 0;
    for (size_t i = 0; i < CHARGEPLAN_ON_WORDS; i++)
        in->on[i] = UINT64_MAX;
    in->wearers_length = 0;
}

static void add_move(struct input *in, uint32_t source, uint32_t target, uint16_t draw, uint16_t gain, uint8_t colours)
{
    in->sources[in->arcs] = (uint8_t)source;
    in->targets[in->arcs] = (uint8_t)target;
    in->draws[in->arcs] = draw;
    in->gains[in->arcs] = gain;
    in->colours[in->arcs] = colours;
    in->actions[in->arcs] = 0;
    in->arcs++;
}

static void add_arc(struct input *in, uint32_t source, uint32_t target, int16_t weight, uint8_t colours)
{
    add_move(in, source, target, chargeplan_draw_of(weight), chargeplan_gain_of(weight), colours);
}

static void add_random_arcs(struct input *in, size_t count, int32_t least, int32_t most, uint32_t rarity)
{
    for (size_t a = 0; a < count; a++) {
        uint32_t source = below(in->n);
        uint32_t target = below(in->n);
        int16_t weight = between(least, most);
        add_arc(in, source, target, weight, make_colours(in->k, rarity));
    }
}

/* Arcs with both parts. */
static void add_random_moves(struct input *in, size_t count, uint32_t draw_most, uint32_t gain_most, uint32_t rarity)
{
    for (size_t a = 0; a < count; a++) {
        uint32_t source = below(in->n);
        uint32_t target = below(in->n);
        uint16_t draw = (uint16_t)below(draw_most + 1);
        uint16_t gain = (uint16_t)below(gain_most + 1);
        add_move(in, source, target, draw, gain, make_colours(in->k, rarity));
    }
}

/* The greatest draw that a bound leaves room for. */
static int16_t draw_all(uint32_t b)
{
    return (int16_t)(b < CHARGEPLAN_DRAW_MOST ? b : CHARGEPLAN_DRAW_MOST);
}

/* 64 modes and 255 arcs with weights from this up to this, k 4, a colour on one arc in 32. */
static void make_random(struct input *in, uint32_t b, int32_t least, int32_t most)
{
    set_numbers(in, 64, 4, 63, b);
    add_random_arcs(in, 255, least, most, 32);
}

void make_64_modes(struct input *in)
{
    make_random(in, 127, -100, 15);
}

void make_8_modes(struct input *in)
{
    set_numbers(in, 8, 4, 511, 1023);
    add_random_arcs(in, 64, -800, 120, 32);
}

/* The chain with this bound. */
static void make_chain_to(struct input *in, uint32_t b)
{
    set_numbers(in, 64, 1, 0, b);
    for (uint32_t mode = 0; mode < in->n; mode++)
        add_arc(in, mode, mode, 1, 0);
    for (uint32_t mode = 0; mode + 1 < in->n; mode++)
        add_arc(in, mode, mode + 1, (int16_t)-draw_all(b), 1);
}

void make_chain(struct input *in)
{
    make_chain_to(in, 127);
}

/* The figure with this bound, which is spread over its modes. */
static void make_figure_to(struct input *in, uint32_t b)
{
    enum { LAST = 60 };
    int32_t all = draw_all(b), by = all / LAST;

    set_numbers(in, LAST + 2, 1, 0, b);
    add_arc(in, 0, 1, (int16_t)all, 0);
    for (int32_t i = 2; i <= LAST; i++) {
        uint32_t mode = (uint32_t)i;
        add_arc(in, 1, mode, (int16_t)(i < LAST ? (i - 2) * by - all : -by), 0);
        add_arc(in, mode, mode, 1, 0);
        add_arc(in, mode, LAST + 1, (int16_t)((1 - i) * by), 0);
    }
    add_arc(in, LAST + 1, 1, 0, 1);
}

void make_figure_6(struct input *in)
{
    make_figure_to(in, 60);
}

void make_ring(struct input *in)
{
    set_numbers(in, 64, 4, 127, 127);
    in->start = 1;
    add_arc(in, 0, 1, -1, 0);
    add_arc(in, 0, 1, -1, 8);
    add_arc(in, 0, 0, 0, 7);
    add_arc(in, 0, 0, 1, 0); /* the last of its mode, so that every charge of mode 0 is passed on before the next */
    for (uint32_t mode = 1; mode < in->n; mode++) {
        add_arc(in, mode, mode, -1, 0);
        add_arc(in, mode, mode, -1, 0);
        add_arc(in, mode, 0, -127, 0);
        if (mode + 1 < in->n)
            add_arc(in, mode, mode + 1, 0, 0);
    }
}

void make_one_mode(struct input *in)
{
    set_numbers(in, 1, 0, 4095, 8191);
    add_random_arcs(in, 255, -10000, 10000, 2);
}

void make_one_mode_colours(struct input *in)
{
    set_numbers(in, 1, 4, 4095, 8191);
    add_random_arcs(in, 255, -10000, 10000, 2);
}

/* The climb to this bound. */
static void make_climb_to(struct input *in, uint32_t b)
{
    set_numbers(in, 1, 1, 0, b);
    for (size_t a = 0; a < 254; a++)
        add_arc(in, 0, 0, between(-draw_all(b), -1), 0);
    add_arc(in, 0, 0, 1, 0);
}

void make_one_mode_climb(struct input *in)
{
    make_climb_to(in, 8191);
}

/* Takes colour 3 from every arc. */
static void miss_colour(struct input *in)
{
    for (size_t a = 0; a < in->arcs; a++)
        in->colours[a] &= 7;
}

void make_missing(struct input *in)
{
    make_random(in, 127, -60, 40);
    miss_colour(in);
}

void make_poor(struct input *in)
{
    make_random(in, 127, -100, 3);
}

void make_losing(struct input *in)
{
    make_random(in, 127, -20, -1);
    in->c = in->b;
}

/* An arc that is possible from a mode with a charge, to a target or (target n) to any. Returns false where some tries give none. */
static bool make_step(const struct input *in, uint32_t mode, uint32_t target, uint32_t charge, uint8_t *arc)
{
    for (size_t tries = 0; tries < 1000; tries++) {
        uint32_t a = below((uint32_t)in->arcs);
        bool right = in->sources[a] == mode && (target == in->n || in->targets[a] == target);
        if (right && charge >= in->draws[a]) {
            *arc = (uint8_t)a;
            return true;
        }
    }
    return false;
}

/* Makes p + q arcs for a model. The last goes to the mode that the cycle begins in. Returns false where it does not come through. */
static bool make_arcs(struct input *in)
{
    uint32_t mode = in->start;
    uint32_t first = in->start;
    uint32_t charge = in->c;

    for (uint32_t i = 0; i < in->p + in->q; i++) {
        if (i == in->p)
            first = mode;
        uint32_t target = i + 1 == in->p + in->q ? first : in->n;
        if (!make_step(in, mode, target, charge, &in->plan[i]))
            return false;
        uint8_t arc = in->plan[i];
        mode = in->targets[arc];
        charge = charge - in->draws[arc] + in->gains[arc];
        if (charge > in->b)
            charge = in->b;
    }
    return true;
}

static void make_model_and_arcs(struct input *in, int32_t weight, uint32_t b)
{
    do {
        set_numbers(in, 8, 4, b / 2, b);
        add_random_arcs(in, 255, -weight, weight, 2);
    } while (!make_arcs(in));
}

void make_plan(struct input *in)
{
    make_model_and_arcs(in, 1000, 8191);
}

void make_steep_plan(struct input *in)
{
    make_model_and_arcs(in, 8191, 8191);
}

void make_low_bound_plan(struct input *in)
{
    make_model_and_arcs(in, 2, 4);
}

void make_64_modes_both(struct input *in)
{
    set_numbers(in, 64, 4, 63, 127);
    add_random_moves(in, 255, 100, 60, 32);
}

void make_plan_both(struct input *in)
{
    do {
        set_numbers(in, 8, 4, 4095, 8191);
        add_random_moves(in, 255, 1000, 1000, 2);
    } while (!make_arcs(in));
}

enum { BARRED = 1 << 3 };

void make_64_modes_barred(struct input *in)
{
    make_64_modes(in);
    in->barred = BARRED;
}

void make_plan_barred(struct input *in)
{
    make_plan(in);
    in->barred = BARRED;
    for (uint32_t i = in->p; i < in->p + in->q; i++)
        in->colours[in->plan[i]] &= (uint8_t)~BARRED;
}

void make_model_with_texts(struct input *in)
{
    set_numbers(in, 64, 4, 63, 127);
    for (size_t a = 0; a < 255; a++)
        add_arc(in, (uint32_t)(a * in->n / 255), below(in->n), between(-10000, 10000), make_colours(in->k, 2));
}

void make_descending_model(struct input *in)
{
    make_model_with_texts(in);
    for (size_t a = 0; a < in->arcs; a++)
        in->sources[a] = (uint8_t)(in->n - 1 - in->sources[a]);
}

/* The colours of an arc in braces, so many times; returns the place behind them. */
static char *print_colours(char *at, uint32_t colours, size_t times)
{
    const char *before = "";

    at += sprintf(at, " {");
    for (size_t i = 0; i < times * CHARGEPLAN_COLOURS_MOST; i++)
        if ((colours >> i % CHARGEPLAN_COLOURS_MOST & 1) != 0) {
            at += sprintf(at, "%s%zu", before, i % CHARGEPLAN_COLOURS_MOST);
            before = " ";
        }
    return at + sprintf(at, "}");
}

/* The blocks of the modes with their arcs; returns the place behind them. */
static char *print_blocks(char *at, const struct input *in, size_t times)
{
    for (size_t a = 0; a < in->arcs; a++) {
        if (a == 0 || in->sources[a] != in->sources[a - 1])
            at += sprintf(at, "State: %u\n", (unsigned)in->sources[a]);
        at += sprintf(at, "[t] %u", (unsigned)in->targets[a]);
        if (in->colours[a] != 0)
            at = print_colours(at, in->colours[a], times);
        at += sprintf(at, "\n");
    }
    return at;
}

void print_texts(struct input *in, size_t comments, size_t times)
{
    char *at = in->hoa;

    at += sprintf(at, "HOA: v1\nStates: %u\nStart: %u\nAP: 0\nAcceptance: 4 Inf(0)&Inf(1)&Inf(2)&Inf(3)\n--BODY--\n", (unsigned)in->n,
                  (unsigned)in->start);
    at = print_blocks(at, in, times);
    at += sprintf(at, "--END--\n");
    in->hoa_length = (size_t)(at - in->hoa);
    at = in->dimacs;
    for (size_t i = 0; i < comments; i++)
        at += sprintf(at, "c%62s\n", "comment");
    at += sprintf(at, "p sp %u %zu\n", (unsigned)in->n, in->arcs);
    for (size_t a = 0; a < in->arcs; a++)
        at += sprintf(at, "a %d %d %d\n", in->sources[a] + 1, in->targets[a] + 1, in->gains[a] - in->draws[a]);
    in->dimacs_length = (size_t)(at - in->dimacs);
}

/* Random arcs with both parts, of which two together draw and gain up to 10,000, and a random order of these actions. */
static void add_actions(struct input *in, size_t count, const uint8_t *actions)
{
    add_random_moves(in, count, CHARGEPLAN_DRAW_MOST / 2, CHARGEPLAN_GAIN_MOST / 2, 2);
    for (size_t a = 0; a < count; a++) {
        size_t other = below((uint32_t)a + 1);
        in->actions[a] = in->actions[other];
        in->actions[other] = actions[a];
    }
}

void make_large_join(struct input *in)
{
    enum { ARCS = CHARGEPLAN_ARCS_MOST, EACH = ARCS / CHARGEPLAN_ACTION_MOST };
    uint8_t of_knee[ARCS], of_habit[ARCS];

    for (size_t a = 0; a < ARCS; a++) {
        of_knee[a] = (uint8_t)(a / EACH);
        of_habit[a] = (uint8_t)(a < CHARGEPLAN_ACTION_MOST ? a : CHARGEPLAN_ACTION_MOST);
    }
    set_numbers(in, 8, 2, 0, 0);
    add_actions(in, ARCS, of_knee);
    set_numbers(in->habit, 8, 2, 0, 0);
    add_actions(in->habit, ARCS, of_habit);
}

void make_small_join(struct input *in)
{
    static const uint8_t of_knee[] = {0, 0, 0, 1, 1, 1, 2, 2, 2, 3, 3, 3}, of_habit[] = {0, 1, 2, 3};

    set_numbers(in, 4, 2, 0, 0);
    add_actions(in, sizeof of_knee, of_knee);
    set_numbers(in->habit, 3, 1, 0, 0);
    add_actions(in->habit, sizeof of_habit, of_habit);
}

void make_ward(struct input *in)
{
    make_plan(in);
    for (size_t i = 0; i < WEARERS; i++)
        in->wearers[i] = (struct chargeplan_wearer){in->start, in->c + below(in->b - in->c + 1), in->b, 0};
    in->wearers_length = WEARERS;
}

void make_ward_of_sixes(struct input *in)
{
    make_ward(in);
    for (size_t i = 0; i < WEARERS; i++)
        in->wearers[i].b = in->wearers[i].c - 1;
}

void make_64_modes_off(struct input *in)
{
    make_64_modes(in);
    for (size_t a = 0; a < in->arcs; a++)
        if (below(4) == 0)
            in->on[a / 64] &= ~((uint64_t)1 << a % 64);
}

/* Bars every arc from the cycle. */
static void bar_arcs(struct input *in)
{
    in->k = 1;
    in->barred = 1;
    for (size_t a = 0; a < in->arcs; a++)
        in->colours[a] = 1;
}

/* Another bound, and credit where it was the bound; what drew all the charge does so again. */
static void raise_bound(struct input *in, uint16_t b)
{
    for (size_t a = 0; a < in->arcs; a++)
        if (in->draws[a] == in->b)
            in->draws[a] = b;
    if (in->c == in->b)
        in->c = b;
    in->b = b;
}

void make_reach(struct input *in)
{
    set_numbers(in, 64, 1, 63, 127);
    add_random_arcs(in, 255, -60, 40, 1);
    bar_arcs(in);
}

void make_reach_chain(struct input *in)
{
    make_chain(in);
    bar_arcs(in);
}

void make_reach_ring(struct input *in)
{
    make_ring(in);
    bar_arcs(in);
}

void make_far_reach(struct input *in)
{
    make_reach(in);
    raise_bound(in, CHARGEPLAN_BOUND_MOST);
}

void make_far_reach_chain(struct input *in)
{
    make_reach_chain(in);
    raise_bound(in, CHARGEPLAN_BOUND_MOST);
}

void make_far_reach_ring(struct input *in)
{
    make_reach_ring(in);
    raise_bound(in, CHARGEPLAN_BOUND_MOST);
}

struct chargeplan_model model_of_input(const struct input *in)
{
    return (struct chargeplan_model){in->n,     in->start,   in->k,       in->sources, in->targets, in->draws,
                                     in->gains, in->colours, in->actions, in->arcs};
}

static void start_reach(struct input *in)
{
    struct chargeplan_model m = model_of_input(in);

    in->reach = chargeplan_model_reach_start(&m, in->c, in->b, in->on).reach;
    in->switched = below((uint32_t)in->arcs);
}

void make_switching(struct input *in)
{
    make_reach(in);
    start_reach(in);
}

void make_far_switching(struct input *in)
{
    make_far_reach(in);
    start_reach(in);
}

void make_decided(struct input *in)
{
    make_random(in, in->b, -100, 15);
}

void make_decided_missing(struct input *in)
{
    make_random(in, in->b, -60, 40);
    miss_colour(in);
}

void make_decided_losing(struct input *in)
{
    make_random(in, in->b, -20, -1);
    in->c = in->b;
}

void make_decided_chain(struct input *in)
{
    make_chain_to(in, in->b);
}

void make_decided_figure_6(struct input *in)
{
    make_figure_to(in, in->b);
}

void make_decided_climb(struct input *in)
{
    make_climb_to(in, in->b);
}

void make_decided_ring(struct input *in)
{
    set_numbers(in, 64, 4, 0, in->b);
    for (uint32_t mode = 0; mode < in->n; mode++)
        add_arc(in, mode, (mode + 1) % in->n, mode + 1 < in->n ? 1 : -62, (uint8_t)(mode % 13 == 12 ? 1 << mode / 13 : 0));
}

void make_decided_row(struct input *in)
{
    set_numbers(in, 64, 1, in->b, in->b);
    for (uint32_t mode = 0; mode + 1 < in->n; mode++)
        add_arc(in, mode, mode + 1, 0, 1);
}
