/* The least credit and the least bound: models whose numbers are known. */
#include "leasts.h"

/* For each bound the least credit, and for each credit the least bound, of an example; NONE where there is none. */
enum { NONE = UINT16_MAX };

static void known(const char *what, enum least of, const struct model *m, uint32_t given, uint32_t value)
{
    if (value == NONE)
        least_is_none(what, of, m, given);
    else
        least_is(what, of, m, given, value);
}

/* Document 01's examples, with some bounds and credits. */
void test_least_examples(void)
{
    const struct {
        const char *what;
        enum least of;
        struct model m;
        uint32_t given, value;
    } examples[] = {
        {"A", LEAST_CREDIT, model_a(), 0, 0},
        {"A, a larger bound", LEAST_CREDIT, model_a(), 100, 0},
        {"A", LEAST_BOUND, model_a(), 0, 0},
        {"A, the credit is the least bound", LEAST_BOUND, model_a(), 77, 77},
        {"B", LEAST_CREDIT, model_b(), 0, NONE},
        {"B, a larger bound", LEAST_CREDIT, model_b(), 8191, NONE},
        {"B", LEAST_BOUND, model_b(), 0, NONE},
        {"B, charged", LEAST_BOUND, model_b(), 8191, NONE},
        {"E", LEAST_CREDIT, model_e(), 10, 0},
        {"E, the least bound", LEAST_CREDIT, model_e(), 3, 0},
        {"F", LEAST_CREDIT, model_e(), 2, NONE},
        {"E", LEAST_BOUND, model_e(), 2, 3},
        {"E, charged", LEAST_BOUND, model_e(), 10, 10},
        {"G", LEAST_CREDIT, model_g(), 5, 0},
        {"H", LEAST_CREDIT, model_g(), 4, NONE},
        {"G", LEAST_BOUND, model_g(), 0, 5},
        {"G, charged a little", LEAST_BOUND, model_g(), 4, 5},
        {"G, charged", LEAST_BOUND, model_g(), 6, 6},
        {"J", LEAST_CREDIT, model_j(), 2, 0},
        {"J with too small a bound", LEAST_CREDIT, model_j(), 1, NONE},
        {"J", LEAST_BOUND, model_j(), 0, 2},
        {"J, charged", LEAST_BOUND, model_j(), 9, 9},
    };
    size_t i;

    for (i = 0; i < sizeof examples / sizeof examples[0]; i++)
        known(examples[i].what, examples[i].of, &examples[i].m, examples[i].given, examples[i].value);
}

/* The example of docs/C-API.md: a larger credit may have a smaller bound, and a larger bound a smaller credit. */
void test_least_trade(void)
{
    static const struct arc arcs[] = {{0, 1, 0, 20, 0, 0}, {1, 0, 10, 0, 0, 0}, {0, 2, 90, 0, 0, 0}, {2, 2, 0, 0, 1, 0}};
    static const char what[] = "the example of docs/C-API.md";
    struct lists lists;
    struct model m = of_arcs(&lists, 3, 1, arcs, 4);

    known(what, LEAST_CREDIT, &m, 89, NONE);
    known(what, LEAST_CREDIT, &m, 90, 90);
    known(what, LEAST_CREDIT, &m, 99, 90);
    known(what, LEAST_CREDIT, &m, 100, 0);
    known(what, LEAST_CREDIT, &m, 2729, 0);
    known(what, LEAST_BOUND, &m, 0, 100);
    known(what, LEAST_BOUND, &m, 89, 100);
    known(what, LEAST_BOUND, &m, 90, 90);
    known(what, LEAST_BOUND, &m, 99, 99);
    known(what, LEAST_BOUND, &m, 2729, 2729);
}

/* One mode whose arc draws so much and gains it again: it has to be there on arrival. */
static void draws_at_once(uint32_t draw, uint32_t given)
{
    struct arc arc = {0, 0, draw, draw, 0, 0};
    struct lists lists;
    struct model m = of_arcs(&lists, 1, 0, &arc, 1);

    known("a draw on arrival", LEAST_CREDIT, &m, given, draw <= given ? draw : NONE);
    known("a draw on arrival", LEAST_BOUND, &m, given, draw <= given ? given : NONE);
}

/* Two modes, of n, between which one arc gains so much, and the other draws it. */
static void there_and_back(uint32_t n, uint32_t draw, uint32_t start, uint32_t b, uint32_t c)
{
    const struct arc arcs[] = {{0, n - 1, 0, draw, 0, 0}, {n - 1, 0, draw, 0, 0, 0}};
    uint32_t largest = CHARGEPLAN_PRODUCT_MOST / n - 1, needed = start == 0 ? 0 : draw;
    struct lists lists;
    struct model m = of_arcs(&lists, n, 0, arcs, 2);

    m.start = start;
    known("there and back", LEAST_CREDIT, &m, b, draw <= b ? needed : NONE);
    known("there and back", LEAST_BOUND, &m, c, draw > largest || c < needed ? NONE : c < draw ? draw : c);
}

/* Every number that may be tried is the answer once, the first and the last among them; one more is none. */
void test_least_each(void)
{
    enum { SMALL = 9 };
    uint32_t draw, b;

    for (b = 0; b <= SMALL; b++)
        for (draw = 0; draw <= b + 1; draw++) {
            there_and_back(64, draw, 0, b, 0);
            there_and_back(64, draw, 63, b, b);
        }
    for (draw = 0; draw <= 128; draw++)
        there_and_back(64, draw, 63, 127, draw % 128);
    for (draw = 100; draw <= 128; draw++)
        there_and_back(64, draw, 0, 127, 99);
}

/* The greatest numbers for one mode, two and three. */
void test_least_greatest(void)
{
    static const uint32_t greatest[] = {8191, 4095, 2729};
    uint32_t n, less;

    for (less = 0; less <= 2; less++) {
        draws_at_once(8192 - less, 8191);
        draws_at_once(8192 - less, 8190);
        for (n = 2; n <= 3; n++) {
            uint32_t largest = greatest[n - 1];

            there_and_back(n, largest + 1 - less, 0, largest, 0);
            there_and_back(n, largest + 1 - less, 0, largest - 1, largest - 1);
            there_and_back(n, largest + 1 - less, n - 1, largest, largest);
            there_and_back(n, largest + 1 - less, n - 1, largest - 1, largest - 1);
        }
    }
    draws_at_once(10000, 8191);
    draws_at_once(0, 8191);
    draws_at_once(4096, 8191);
    draws_at_once(4095, 8191);
}

/* An arc that draws 5 and then gains 8 cannot be started with less, whatever it gains. */
void test_least_dip(void)
{
    static const struct arc dip = {0, 0, 5, 8, 0, 0};
    struct lists lists;
    struct model m = of_arcs(&lists, 1, 0, &dip, 1);

    known("the dip", LEAST_CREDIT, &m, 4, NONE);
    known("the dip", LEAST_CREDIT, &m, 5, 5);
    known("the dip", LEAST_CREDIT, &m, 1000, 5);
    known("the dip", LEAST_BOUND, &m, 4, NONE);
    known("the dip", LEAST_BOUND, &m, 5, 5);
    known("the dip", LEAST_BOUND, &m, 6, 6);
}

/* A ring of 64 modes, of which one half gains and the other draws, by so much on each arc; four arcs have the colours. */
static struct model ring(struct lists *lists, uint32_t by)
{
    enum { MODES = CHARGEPLAN_MODES_MOST };
    struct model m = listed(MODES, CHARGEPLAN_COLOURS_MOST, lists, MODES);
    uint32_t i;

    for (i = 0; i < MODES; i++) {
        struct arc arc = {i, (i + 1) % MODES, i < MODES / 2 ? 0 : by, i < MODES / 2 ? by : 0, i % 13 == 12 ? 1u << i / 13 : 0, 0};

        put(lists, i, arc);
    }
    return m;
}

void test_least_ring(void)
{
    struct lists lists;
    struct model m = ring(&lists, 3);

    known("a ring", LEAST_CREDIT, &m, 127, 0);
    known("a ring", LEAST_CREDIT, &m, 96, 0);
    known("a ring with too small a bound", LEAST_CREDIT, &m, 95, NONE);
    known("a ring", LEAST_BOUND, &m, 0, 96);
    known("a ring, charged", LEAST_BOUND, &m, 97, 97);
    m.start = 40;
    known("a ring from another mode", LEAST_CREDIT, &m, 127, 72);
    known("a ring from another mode", LEAST_BOUND, &m, 72, 96);
    known("a ring from another mode, one less", LEAST_BOUND, &m, 71, NONE);
    m.barred = 1;
    known("a colour of the ring is barred", LEAST_CREDIT, &m, 127, NONE);
    m.barred = 0;
    m.switches = with_off(all_on, 5);
    known("an arc of the ring is off", LEAST_BOUND, &m, 127, NONE);
    m = ring(&lists, 4);
    known("a ring that needs a larger bound", LEAST_BOUND, &m, 0, NONE);
    known("a ring that needs a larger bound", LEAST_CREDIT, &m, 127, NONE);
    lists.draws[63] = lists.gains[31] = 3;
    known("a ring that needs the largest bound", LEAST_BOUND, &m, 0, 127);
    known("a ring that needs the largest bound", LEAST_CREDIT, &m, 127, 0);
    known("a ring that needs the largest bound", LEAST_CREDIT, &m, 126, NONE);
}
