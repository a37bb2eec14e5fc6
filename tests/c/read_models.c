/* Reading: blocks, texts that disagree, models that are not fit, lists of any lengths, and the order of the refusals. */
#include "texts.h"

#include <stdio.h>

/* The head of a HOA text, to --BODY--. */
static void add_head(struct page *to, uint32_t n, uint32_t start, uint32_t k)
{
    uint32_t j;

    add(to, "HOA: v1\nStates: ");
    add_number(to, n, 1);
    add(to, "\nStart: ");
    add_number(to, start, 1);
    add(to, "\nAP: 0\nAcceptance: ");
    add_number(to, k, 1);
    add(to, k == 0 ? " t\n" : " ");
    for (j = 0; j < k; j++) {
        add(to, "Inf(");
        add_number(to, j, 1);
        add(to, j + 1 < k ? ")&" : ")\n");
    }
    add(to, "--BODY--\n");
}

/* A pair in which the HOA text has this body, and the DIMACS text this n and these lines behind p, so many of them. */
static void read_body(const char *what, uint32_t n, const char *body, uint32_t m, const char *arcs, uint32_t number, uint64_t detail)
{
    struct pair p = {{NULL, 0, 0}, {NULL, 0, 0}};

    add_head(&p.hoa, n, 0, 1);
    add(&p.hoa, body);
    add(&p.hoa, "--END--\n");
    add(&p.dimacs, "p sp ");
    add_number(&p.dimacs, n, 1);
    add(&p.dimacs, " ");
    add_number(&p.dimacs, m, 1);
    add(&p.dimacs, "\n");
    add(&p.dimacs, arcs);
    read_as(what, text_of(&p.hoa), text_of(&p.dimacs), number, detail);
    free_pair(&p);
}

/* Blocks of all states, and then a second one of each in turn, which is refused at its line. */
static void test_every_block(uint32_t n)
{
    struct pair p = {{NULL, 0, 0}, {NULL, 0, 0}};
    uint32_t again, mode;

    for (again = 0; again < n; again++) {
        clear_pair(&p);
        add_head(&p.hoa, n, 0, 0);
        for (mode = 0; mode < n; mode++) {
            add(&p.hoa, "State: ");
            add_number(&p.hoa, mode, 1);
            add(&p.hoa, "\n");
        }
        add(&p.hoa, "State: ");
        add_number(&p.hoa, again, 3);
        add(&p.hoa, "\n--END--\n");
        read_as("19: a second block", text_of(&p.hoa), as_text("p sp 1 0\n"), CHARGEPLAN_HOA_LINE, 7 + n);
    }
    free_pair(&p);
}

void test_read_blocks(void)
{
    read_body("no block", 2, "", 0, "", CHARGEPLAN_YES, 0);
    read_body("empty blocks", 2, "State: 1\nState: 0\n", 0, "", CHARGEPLAN_YES, 0);
    read_body("blocks in another order", 3, "State: 2\n[t] 0\nState: 0\n[t] 1\n[t] 2\n", 3, "a 3 1 1\na 1 2 2\na 1 3 3\n",
        CHARGEPLAN_YES, 0);
    read_body("19: an edge before the blocks", 2, "[t] 0\nState: 0\n", 1, "a 1 1 1\n", CHARGEPLAN_HOA_LINE, 7);
    read_body("19: an edge and no block", 2, "[t] 0\n", 1, "a 1 1 1\n", CHARGEPLAN_HOA_LINE, 7);
    read_body("19: a second block at once", 2, "State: 1\nState: 1\n", 0, "", CHARGEPLAN_HOA_LINE, 8);
    read_body("19: a second block later", 3, "State: 1\n[t] 0\nState: 2\n[t] 1\nState: 001\n", 2, "a 2 1 1\na 3 2 2\n",
        CHARGEPLAN_HOA_LINE, 11);
    read_body("19: a second block before a wrong line", 2, "State: 1\nState: 1\nx\n", 0, "", CHARGEPLAN_HOA_LINE, 8);
    read_body("19: a wrong line before a second block", 2, "State: 1\nx\nState: 1\n", 0, "", CHARGEPLAN_HOA_LINE, 8);
    read_body("19: no mode is below 0", 0, "State: 0\n", 0, "", CHARGEPLAN_HOA_LINE, 7);
    read_body("19: a second block above 64", 100, "State: 64\nState: 0\nState: 64\n", 0, "", CHARGEPLAN_HOA_LINE, 9);
    read_body("19: a second block of another state above 64", 300, "State: 99\nState: 0\nState: 255\n[t] 0\nState: 99\n", 1, "a 256 1 0\n",
        CHARGEPLAN_HOA_LINE, 11);
    read_body("1: states that are equal modulo 64", 200, "State: 0\nState: 64\nState: 128\n", 0, "", CHARGEPLAN_MODE_COUNT, 0);
    read_body("1: states that are equal modulo 256", 999, "State: 1\nState: 257\nState: 513\n", 0, "", CHARGEPLAN_MODE_COUNT, 0);
    read_body("1: states that are equal modulo 65536", 999999999, "State: 1\nState: 65537\n", 0, "", CHARGEPLAN_MODE_COUNT, 0);
    read_body("19: the greatest state again", 999999999, "State: 999999998\nState: 0\nState: 999999998\n", 0, "", CHARGEPLAN_HOA_LINE, 9);
    read_body("19: a state that is not below the greatest n", 999999999, "State: 999999999\n", 0, "", CHARGEPLAN_HOA_LINE, 7);
    test_every_block(64);
    test_every_block(66);
}

/* Both texts are right, and do not belong together. */
void test_read_disagreements(void)
{
    static const struct {
        const char *hoa_n, *body, *dimacs_n, *m, *arcs;
    } pairs[] = {
        {"2", "", "3", "0", ""},
        {"3", "", "2", "0", ""},
        {"0", "", "1", "0", ""},
        {"64", "", "65", "0", ""},
        {"999999999", "", "999999998", "0", ""},
        {"2", "State: 0\n[t] 1\n", "3", "1", "a 1 2 0\n"},
        {"2", "State: 0\n[t] 1\n", "2", "0", ""},
        {"2", "", "2", "1", "a 1 2 0\n"},
        {"2", "State: 0\n[t] 1\n", "2", "2", "a 1 2 0\na 1 2 0\n"},
        {"2", "State: 0\n[t] 1\n[t] 1\n", "2", "1", "a 1 2 0\n"},
        {"2", "State: 0\n[t] 1\n", "2", "1", "a 1 1 0\n"},
        {"2", "State: 0\n[t] 1\n", "2", "1", "a 2 2 0\n"},
        {"2", "State: 0\n[t] 1\n", "2", "1", "a 2 1 0\n"},
        {"2", "State: 0\n[t] 0\n[t] 1\n", "2", "2", "a 1 2 0\na 1 1 0\n"},
        {"2", "State: 0\n[t] 0\nState: 1\n[t] 0\n", "2", "2", "a 2 1 0\na 1 1 0\n"},
        {"2", "State: 1\n[t] 0\nState: 0\n[t] 0\n", "2", "2", "a 1 1 0\na 2 1 0\n"},
        {"2", "State: 0\n[t] 0\nState: 1\n", "2", "1", "a 2 1 0\n"},
        {"300", "State: 0\n[t] 256\n", "300", "1", "a 1 1 0\n"},
        {"300", "State: 256\n[t] 0\n", "300", "1", "a 1 1 0\n"},
        {"999999999", "State: 65536\n[t] 0\n", "999999999", "1", "a 1 1 0\n"},
        {"999999999", "State: 0\n[t] 65536\n", "999999999", "1", "a 1 1 0\n"},
    };
    char hoa[200], dimacs[200];
    size_t i;

    for (i = 0; i < sizeof pairs / sizeof pairs[0]; i++) {
        snprintf(hoa, sizeof hoa, "HOA: v1\nStates: %s\nStart: 0\nAP: 0\nAcceptance: 0 t\n--BODY--\n%s--END--\n", pairs[i].hoa_n,
            pairs[i].body);
        snprintf(dimacs, sizeof dimacs, "p sp %s %s\n%s", pairs[i].dimacs_n, pairs[i].m, pairs[i].arcs);
        read_as("21", as_text(hoa), as_text(dimacs), CHARGEPLAN_TEXTS_DISAGREE, 0);
    }
}

/* So many arcs from mode 0 to mode 1 of weight 0; one has this weight and, where it is asked for, another target in one text. */
struct many {
    uint32_t arcs, other;
    const char *weight;
    int other_target;
};

static void print_many(struct pair *p, struct many many)
{
    uint32_t a;

    clear_pair(p);
    add_head(&p->hoa, 2, 0, 0);
    add(&p->hoa, "State: 0\n");
    add(&p->dimacs, "p sp 2 ");
    add_number(&p->dimacs, many.arcs, 1);
    add(&p->dimacs, "\n");
    for (a = 0; a < many.arcs; a++) {
        add(&p->hoa, "[t] 1\n");
        add(&p->dimacs, many.other_target && a == many.other ? "a 1 1 " : "a 1 2 ");
        add(&p->dimacs, a == many.other ? many.weight : "0");
        add(&p->dimacs, "\n");
    }
    add(&p->hoa, "--END--\n");
}

/* Many arcs read into lists of one length. */
static void read_many(const char *what, struct many many, size_t room, uint32_t number, uint64_t detail)
{
    struct pair p = {{NULL, 0, 0}, {NULL, 0, 0}};
    struct reading r;

    print_many(&p, many);
    r = read_texts(what, text_of(&p.hoa), text_of(&p.dimacs), equal_rooms(room), NULL);
    check(r.number == number && r.detail == detail && r.m == (number == CHARGEPLAN_YES ? many.arcs : 0), what);
    free_pair(&p);
}

/* 5: a weight outside its range, by each arc of many. */
static void test_weights(void)
{
    static const char *const fit[] = {"0", "-0", "1", "-1", "10000", "-10000", "000010000", "-000010000", "9999", "-9999"},
                      *const unfit[] = {"10001", "-10001", "65536", "-65536", "32768", "-32768", "65535", "70000", "-70000", "000010001",
                          "999999999", "-999999999", "75536", "-75536"};
    struct many many = {4, 0, NULL, 0};
    size_t i;

    for (i = 0; i < sizeof fit / sizeof fit[0]; i++) {
        many.weight = fit[i];
        read_many("a weight", many, 4, CHARGEPLAN_YES, 0);
    }
    for (i = 0; i < sizeof unfit / sizeof unfit[0]; i++) {
        many.weight = unfit[i];
        many.other = (uint32_t)i % 4;
        read_many("5: a weight", many, 4, CHARGEPLAN_UNFIT_ARC, i % 4);
    }
    many.arcs = CHARGEPLAN_ARCS_MOST;
    for (many.other = 0; many.other < many.arcs; many.other++)
        read_many("5: each of 255 arcs", many, CHARGEPLAN_ARCS_MOST, CHARGEPLAN_UNFIT_ARC, many.other);
    read_body("5: the lowest of two", 2, "State: 0\n[t] 0\n[t] 1\n[t] 1\n", 3, "a 1 1 1\na 1 2 -10001\na 1 2 10001\n",
        CHARGEPLAN_UNFIT_ARC, 1);
}

/* n, start mode and k at their limits, in both texts. */
static void test_limits(void)
{
    static const struct {
        uint32_t n, start, k, number;
    } models[] = {
        {0, 0, 0, 1}, {1, 0, 0, 0}, {64, 63, 4, 0}, {65, 0, 0, 1}, {65, 65, 5, 1}, {256, 0, 0, 1}, {257, 0, 0, 1}, {65537, 0, 0, 1},
        {999999999, 0, 0, 1}, {1, 1, 0, 2}, {64, 64, 4, 2}, {64, 256, 0, 2}, {64, 257, 5, 2}, {64, 65536, 0, 2}, {64, 999999999, 0, 2},
        {1, 0, 4, 0}, {1, 0, 5, 4}, {1, 0, 8, 4}, {1, 0, 9, 4}, {1, 0, 32, 4}, {1, 0, 33, 4}, {1, 0, 256, 4}, {1, 0, 260, 4},
        {1, 0, 1000, 4}, {1, 0, 65536 + 4, 4},
    };
    struct pair p = {{NULL, 0, 0}, {NULL, 0, 0}};
    size_t i;

    for (i = 0; i < sizeof models / sizeof models[0]; i++) {
        clear_pair(&p);
        add_head(&p.hoa, models[i].n, models[i].start, models[i].k);
        add(&p.hoa, "--END--\n");
        add(&p.dimacs, "p sp ");
        add_number(&p.dimacs, models[i].n, 1);
        add(&p.dimacs, " 0\n");
        read_as("n, start mode and k", text_of(&p.hoa), text_of(&p.dimacs), models[i].number, 0);
    }
    free_pair(&p);
}

void test_read_unfit(void)
{
    test_limits();
    test_weights();
}

/* The knee's four arcs in lists of these lengths, but for one list, which has so many places. */
static void read_short(size_t list, size_t places, size_t others, uint32_t number)
{
    static const char what[] = "one list of another length";
    struct rooms rooms = equal_rooms(others);

    rooms.of[list] = places;
    check(read_texts(what, as_text(knee_hoa), as_text(knee_dimacs), rooms, NULL).number == number, what);
}

/* Each list in turn is as long as it must be, one place too short, or without places. */
static void test_rooms(void)
{
    static const size_t others[] = {4, 5, 255, 256, 1000};
    size_t list, i;

    for (list = 0; list < MODEL_LISTS; list++)
        for (i = 0; i < sizeof others / sizeof others[0]; i++) {
            read_short(list, 4, others[i], CHARGEPLAN_YES);
            read_short(list, 3, others[i], CHARGEPLAN_ARC_LISTS);
            read_short(list, 0, others[i], CHARGEPLAN_ARC_LISTS);
        }
}

/* About as many arcs as are taken at most, in lists that are too short, as long as they must be, and longer. */
static void test_most_arcs(void)
{
    struct many many = {0, 0, "0", 0};

    for (many.arcs = 253; many.arcs <= 258; many.arcs++) {
        uint32_t number = many.arcs > CHARGEPLAN_ARCS_MOST ? CHARGEPLAN_ARC_LISTS : CHARGEPLAN_YES;

        read_many("3: one place too few", many, many.arcs - 1, CHARGEPLAN_ARC_LISTS, 0);
        read_many("as many places as arcs", many, many.arcs, number, 0);
        read_many("more places than arcs", many, 300, number, 0);
    }
}

void test_read_lists(void)
{
    struct many many = {0, 0, "0", 0};

    test_rooms();
    test_most_arcs();
    read_many("no arcs, no places", many, 0, CHARGEPLAN_YES, 0);
    many.arcs = 1;
    read_many("3: an arc, no places", many, 0, CHARGEPLAN_ARC_LISTS, 0);
    many.arcs = 300;
    read_many("3: 300 arcs", many, 300, CHARGEPLAN_ARC_LISTS, 0);
    many.other_target = 1;
    for (many.other = 250; many.other < many.arcs; many.other++)
        read_many("21: one of 300 arcs has other ends", many, 300, CHARGEPLAN_TEXTS_DISAGREE, 0);
    many.other_target = 0;
    many.other = 280;
    many.weight = "10001";
    read_many("3: the 281st weight is not looked at", many, 300, CHARGEPLAN_ARC_LISTS, 0);
    many.weight = "x";
    read_many("20: the 281st weight is none", many, 300, CHARGEPLAN_DIMACS_LINE, 282);
    many.arcs = 512;
    many.weight = "0";
    read_many("3: 512 arcs", many, 512, CHARGEPLAN_ARC_LISTS, 0);
    many.arcs = 65536 + 3;
    read_many("3: 65,539 arcs", many, 300, CHARGEPLAN_ARC_LISTS, 0);
}

/* What may be wrong with a pair, in the order in which it is looked at, and the number of each. */
enum { HOA, DIMACS, OTHER_N, OTHER_M, OTHER_SOURCE, OTHER_TARGET, MODES, START, LISTS, COLOURS, WEIGHT, FAULTS };

static const uint32_t fault_numbers[FAULTS] = {19, 20, 21, 21, 21, 21, 1, 2, 3, 4, 5};

/* A pair of two arcs with these faults, a bit each. */
static void print_faults(struct pair *p, unsigned faults)
{
    uint32_t n = faults >> MODES & 1 ? 70 : 7, k = faults >> COLOURS & 1 ? 6 : 2;

    clear_pair(p);
    add_head(&p->hoa, n, faults >> START & 1 ? 99 : 3, k);
    add(&p->hoa, faults >> HOA & 1 ? "State: 2 \n" : "State: 2\n");
    add(&p->hoa, "[t] 3 {1}\n[t] 4\n--END--\n");
    add(&p->dimacs, "p sp ");
    add_number(&p->dimacs, n + (faults >> OTHER_N & 1), 1);
    add(&p->dimacs, faults >> OTHER_M & 1 ? " 3\n" : " 2\n");
    add(&p->dimacs, faults >> WEIGHT & 1 ? "a 3 4 10001\n" : "a 3 4 10000\n");
    add(&p->dimacs, faults >> OTHER_SOURCE & 1 ? "a 4 " : "a 3 ");
    add(&p->dimacs, faults >> OTHER_TARGET & 1 ? "6 " : "5 ");
    add(&p->dimacs, faults >> DIMACS & 1 ? "+1\n" : "1\n");
    if (faults >> OTHER_M & 1)
        add(&p->dimacs, "a 1 1 0\n");
}

/* The first of some faults; FAULTS where there is none. */
static unsigned first_of(unsigned faults)
{
    unsigned first = 0;

    while (first < FAULTS && !(faults >> first & 1))
        first++;
    return first;
}

/* Every set of faults: the first in the order decides. */
void test_read_order(void)
{
    static const char what[] = "the order of the refusals";
    struct pair p = {{NULL, 0, 0}, {NULL, 0, 0}};
    unsigned faults;

    for (faults = 0; faults < 1u << FAULTS; faults++) {
        unsigned first = first_of(faults);
        struct reading r;

        print_faults(&p, faults);
        r = read_texts(what, text_of(&p.hoa), text_of(&p.dimacs), equal_rooms(faults >> LISTS & 1 ? 1 : 2), NULL);
        check(r.number == (first < FAULTS ? fault_numbers[first] : 0), what);
        check(r.detail == (first == HOA ? 7u : first == DIMACS ? 3u : 0u), what);
    }
    free_pair(&p);
}
