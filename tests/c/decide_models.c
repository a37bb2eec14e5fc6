/* The decision: models with bounds up to 1,000,000 whose answer is known, most of them since a charge is just enough, or one too little. */
#include "decides.h"

enum { MODES = CHARGEPLAN_MODES_MOST, MOST = CHARGEPLAN_DECIDE_BOUND_MOST, DRAW = CHARGEPLAN_DRAW_MOST };

/* The example of docs/C-API.md. */
static void test_example(void)
{
    static const struct arc arcs[] = {{0, 1, 0, 2000, 0, 0}, {1, 0, 1000, 0, 0, 0}, {0, 2, 9000, 0, 0, 0}, {2, 2, 0, 0, 1, 0}};
    struct lists lists;
    struct model m = of_arcs(&lists, 3, 1, arcs, 4);

    decided("the example of docs/C-API.md", &m, 0, 9999, 0);
    decided("the example of docs/C-API.md", &m, 0, 10000, 1);
    decided("the example of docs/C-API.md", &m, 9000, 9999, 1);
}

/* An example of document 01, and the most times as great that its draws and gains may be. */
struct example {
    const char *what;
    struct model m;
    uint32_t c, b, times;
    int has_plan;
};

/* With draws, gains, credit and bound all so many times as great, every charge is, and the answer is the same. */
static void scaled_up(const struct example *e)
{
    static const uint32_t parts[] = {1, 2, 3, 10, 1000};
    struct lists lists;
    size_t i;

    for (i = 0; i < sizeof parts / sizeof parts[0]; i++) {
        uint32_t times = 1 + (e->times - 1) / parts[i];
        struct model m = scaled(&e->m, times, &lists);

        decided(e->what, &m, e->c * times, e->b * times, e->has_plan);
    }
    decided(e->what, &e->m, e->c, e->b, e->has_plan);
}

void test_decide_examples(void)
{
    const struct example examples[] = {
        {"A", model_a(), 0, 0, DRAW, 1},
        {"A, charged", model_a(), 7, 100, DRAW, 1},
        {"B", model_b(), 0, 0, DRAW, 0},
        {"B, charged", model_b(), 100, 100, DRAW, 0},
        {"E: the first round ends lower", model_e(), 10, 10, DRAW / 3, 1},
        {"E, a greater bound", model_e(), 300, 300, DRAW / 3, 1},
        {"F", model_e(), 2, 2, DRAW / 3, 0},
        {"G", model_g(), 0, 5, DRAW / 5, 1},
        {"G, a greater bound", model_g(), 0, 500, DRAW / 5, 1},
        {"H", model_g(), 0, 4, DRAW / 5, 0},
        {"J has no simple accepting loop", model_j(), 0, 2, DRAW / 2, 1},
        {"J, a greater bound", model_j(), 0, 200, DRAW / 2, 1},
        {"J with too small a bound", model_j(), 1, 1, DRAW / 2, 0},
    };
    size_t i;

    for (i = 0; i < sizeof examples / sizeof examples[0]; i++)
        scaled_up(&examples[i]);
    test_example();
}

/* A way to mode 1 that gains 20, and a way back that draws 10. */
static struct sketch there_and_back(void)
{
    struct sketch s = sketch(2, 1);

    add_arc(&s, 0, 1, 0, 20, 0);
    add_arc(&s, 1, 0, 10, 0, 0);
    return s;
}

/* Document 001: "never above 20 = b - 10". Mode 0 is raised round by round, and never above b - 10, unless it began there. */
static void test_trap(void)
{
    static const uint32_t bounds[] = {30, 31, 39, 127, 8191, 8192, DRAW, DRAW + 10, 65535, 65536, 65546, 100000, 524288, 600000};
    struct sketch s = there_and_back();
    size_t i;

    for (i = 0; i < sizeof bounds / sizeof bounds[0]; i++) {
        has_peak("one mode never passes b - 10", &s, 0, 0, 0, bounds[i], bounds[i] - 10);
        has_peak("the other is full", &s, 0, 1, 0, bounds[i], bounds[i]);
        has_peak("it began above that", &s, 0, 0, bounds[i] - 3, bounds[i], bounds[i] - 3);
    }
}

/* A loop of which the arc from one mode gains and the others draw 1: each mode has its own top. With one less it raises nothing. */
static void tops(uint32_t gains_at)
{
    enum { LOOP = 40, B = 200000, C = 77777 };
    struct sketch s = sketch(LOOP, 1);
    uint32_t i;

    for (i = 0; i < LOOP; i++)
        add_arc(&s, i, (i + 1) % LOOP, i != gains_at, i != gains_at ? 0 : LOOP, 0);
    for (i = 0; i < LOOP; i++)
        has_peak("each mode of a loop has its own top", &s, 0, i, C, B, B + 1 - (i > gains_at ? i - gains_at : i + LOOP - gains_at));
    s.lists.gains[gains_at]--;
    for (i = 0; i < LOOP; i++)
        has_peak("a loop that gains nothing", &s, 0, i, C, B, C - i + (i > gains_at ? LOOP : 0));
}

/* Gaining loops that are possible only with the charge of others before them. */
static void test_loops_of_loops(void)
{
    struct sketch s = sketch(3, 1);

    add_arc(&s, 0, 0, 0, 1, 0);
    add_arc(&s, 0, 1, 5000, 0, 0);
    add_arc(&s, 1, 1, 4000, 4001, 0);
    add_arc(&s, 1, 2, 9000, 0, 0);
    add_arc(&s, 2, 0, 0, 300, 0);
    add_arc(&s, 2, 2, 700, 500, 0);
    has_peak("three loops", &s, 0, 2, 0, 10000, 1000);
    has_peak("three loops, the second full", &s, 0, 1, 0, 10000, 10000);
    has_peak("the second loop cannot be begun", &s, 0, 1, 0, 8999, 3999);
    has_peak("the second loop can be begun", &s, 0, 1, 0, 9000, 9000);
    has_peak("the third mode has a great charge", &s, 0, 2, 0, 400000, 391000);
    has_peak("only the first", &s, 0, 0, 0, 4999, 4999);
}

/*
 * Half of the modes each charge by a loop, and lead to a long way by the other half, the later ones with a draw of one less: so each comes
 * to its end with one more than the one before it, and only then to the next of them.
 */
static void again_and_again(uint32_t more)
{
    enum { HALF = MODES / 2, B = 15000 };
    struct sketch s = sketch(MODES, 1);
    struct model m;
    uint32_t i;

    for (i = 0; i < HALF; i++) {
        add_arc(&s, i, i, 0, 1, i + 1 == HALF);
        add_arc(&s, i, MODES - 1, DRAW - i, 0, 0);
    }
    for (i = 0; i + 1 < HALF; i++) {
        add_arc(&s, MODES - 1 - i, MODES - 2 - i, 0, 0, 0);
        add_arc(&s, HALF, i + 1, B - DRAW + i + (i + 2 == HALF ? more : 0), 0, 0);
    }
    m = of_sketch(&s);
    decided("a long way gone again and again", &m, 0, B, more == 0);
}

/* A loop that gains 1 fills any battery; and nothing is gained where no arc does. */
static void test_great_charges(void)
{
    static const uint32_t charges[] = {0, 1, 65534, 65535, 65536, 131072, 524288, 620000};
    struct sketch s = sketch(1, 1);
    size_t i;

    for (i = 0; i < sizeof charges / sizeof charges[0]; i++)
        has_peak("no arc gains", &s, 0, 0, charges[i], MOST, charges[i]);
    add_arc(&s, 0, 0, 0, 1, 0);
    for (i = 0; i < sizeof charges / sizeof charges[0]; i++)
        has_peak("a loop gains 1", &s, 0, 0, 0, charges[i], charges[i]);
}

void test_decide_loops(void)
{
    test_trap();
    tops(0);
    tops(17);
    tops(39);
    test_loops_of_loops();
    again_and_again(0);
    again_and_again(1);
    test_great_charges();
}

/* All modes in a row, each by so many further than the one before it; each arc has all the colours. At the end is a loop. */
static void in_a_row(uint32_t k, uint32_t by)
{
    struct sketch s = sketch(MODES, k);
    uint32_t colours = (1u << k) - 1, end = (MODES - 1) * by % MODES, i;
    struct model m;

    for (i = 0; i + 1 < MODES; i++)
        add_arc(&s, i * by % MODES, (i + 1) * by % MODES, 1, 1, colours);
    m = of_sketch(&s);
    decided("modes in a row, without a loop", &m, 1, MOST, 0);
    add_arc(&s, end, end, 0, 0, colours);
    m = of_sketch(&s);
    decided("modes in a row", &m, 1, MOST, 1);
    s.lists.draws[s.arcs - 1] = 1;
    decided("modes in a row, the loop at the end draws", &m, MOST, MOST, 0);
    s.lists.gains[s.arcs - 1] = 1;
    decided("modes in a row, it draws what it gains", &m, 1, MOST, 1);
    decided("modes in a row, it draws what there is not", &m, 0, MOST, 0);
    s.lists.colours[s.arcs - 1] = (uint8_t)(colours >> 1);
    decided("modes in a row, it lacks a colour", &m, 1, MOST, k == 0);
}

/*
 * Figure 6 of document 001 with b 60, "where two iterations do not suffice", so many times as great: of the ways round by the modes 2 to 60
 * only the last keeps its charge, and not where it draws one more.
 */
static void figure_6(uint32_t times, uint32_t more)
{
    enum { B = 60 };
    struct sketch s = sketch(B + 2, 1);
    struct model m;
    uint32_t i;

    add_arc(&s, 0, 1, 0, B * times, 0);
    for (i = 2; i <= B; i++) {
        add_arc(&s, 1, i, (i < B ? B + 2 - i : 1) * times + (i < B ? 0 : more), 0, 0);
        add_arc(&s, i, i, 0, times, 0);
        add_arc(&s, i, B + 1, (i - 1) * times, 0, 0);
    }
    add_arc(&s, B + 1, 1, 0, 0, 1);
    m = of_sketch(&s);
    decided("figure 6 of document 001", &m, 0, B * times, more == 0);
}

/* Peaks that do not come again, of which each time round shows one or a few. */
void test_decide_sets(void)
{
    uint32_t k, times;

    for (k = 0; k <= CHARGEPLAN_COLOURS_MOST; k++) {
        in_a_row(k, 1);
        in_a_row(k, 29);
        in_a_row(k, MODES - 1);
    }
    for (times = 1; times <= DRAW / 60; times += 33) {
        figure_6(times, 0);
        figure_6(times, 1);
    }
}

/* A ring of 64 modes, of which one half gains and the other draws, by so much on each arc; the four colours are on four arcs. */
static void ring(uint32_t by)
{
    enum { HALF = MODES / 2 };
    struct sketch s = sketch(MODES, CHARGEPLAN_COLOURS_MOST);
    struct model m;
    uint32_t i;

    for (i = 0; i < MODES; i++)
        add_arc(&s, i, (i + 1) % MODES, i < HALF ? 0 : by, i < HALF ? by : 0, i % 13 == 12 ? 1u << i / 13 : 0);
    m = of_sketch(&s);
    decided("a ring", &m, 0, HALF * by, 1);
    decided("a ring with too small a bound", &m, 0, HALF * by - 1, 0);
    decided("a ring with a great bound", &m, 0, MOST, 1);
    s.lists.draws[MODES - 1]++;
    decided("a ring that loses", &m, MOST, MOST, 0);
    s.lists.gains[0]++;
    decided("a ring that gains as much more", &m, 0, HALF * by + 1, 1);
    decided("a ring that gains as much more, too small a bound", &m, 0, HALF * by, 0);
    s.lists.colours[25] = 0;
    decided("a ring without a colour", &m, 0, MOST, 0);
}

/* Modes in a row that each charge by a loop, with ways of the greatest draw. Where only the first charges, it has to last for all. */
static void chain(void)
{
    struct sketch s = sketch(MODES, 1);
    struct model m;
    uint32_t i;

    for (i = 0; i < MODES; i++)
        add_arc(&s, i, i, 0, 1, i + 1 == MODES);
    for (i = 0; i + 1 < MODES; i++)
        add_arc(&s, i, i + 1, DRAW, 0, 0);
    m = of_sketch(&s);
    decided("a chain", &m, 0, MOST, 1);
    decided("a chain with the least bound", &m, 0, DRAW, 1);
    decided("a chain with too small a bound", &m, 0, DRAW - 1, 0);
    m.switches = with_on(with_on(with_from(all_off, MODES, 1), 0), MODES - 1);
    decided("only the first and the last charge", &m, 0, (MODES - 1) * DRAW, 1);
    decided("only the first and the last charge, too small a bound", &m, 0, (MODES - 1) * DRAW - 1, 0);
    decided("only the first and the last charge, a great bound", &m, 0, MOST, 1);
    m.switches = with_off(m.switches, MODES - 1);
    decided("the loop with the colour is off", &m, 0, MOST, 0);
}

void test_decide_large(void)
{
    ring(1);
    ring(100);
    ring(DRAW - 1);
    chain();
}
