/* Reading: pairs of texts by hand, and every line of a pair in right and in wrong forms. */
#include "texts.h"

/* A pair of texts given as strings. */
static void read_strings(const char *what, const char *hoa, const char *dimacs, uint32_t number, uint64_t detail)
{
    read_as(what, as_text(hoa), as_text(dimacs), number, detail);
}

/* What is read of the pair: the numbers, and arc by arc. */
static void read_exactly(const char *what, const char *hoa, const char *dimacs, struct reading expected, const struct arc *arcs)
{
    struct lists lists;
    struct reading r = read_texts(what, as_text(hoa), as_text(dimacs), equal_rooms(CHARGEPLAN_ARCS_MOST), &lists);
    uint32_t a;

    check(r.number == 0 && r.detail == 0 && r.n == expected.n && r.start == expected.start && r.k == expected.k && r.m == expected.m, what);
    for (a = 0; a < r.m && a < expected.m; a++)
        check(lists.sources[a] == arcs[a].source && lists.targets[a] == arcs[a].target && lists.draws[a] == arcs[a].draw
                && lists.gains[a] == arcs[a].gain && lists.colours[a] == arcs[a].colours && lists.actions[a] == arcs[a].action, what);
}

/* Numbers and arcs by hand. */
void test_read_pairs(void)
{
    static const struct reading knee = {0, 0, 4, 3, 2, 4}, least = {0, 0, 1, 0, 0, 0}, g = {0, 0, 2, 0, 1, 3}, all = {0, 0, 64, 63, 4, 1},
                                rest = {0, 0, 3, 0, 2, 4};
    static const struct arc knee_arcs[] = {{3, 1, 3, 0, 0, 0}, {3, 2, 0, 9, 1, 0}, {1, 3, 0, 0, 3, 0}, {1, 3, 10000, 0, 0, 0}},
                            g_arcs[] = {{0, 0, 0, 1, 0, 0}, {0, 1, 5, 0, 0, 0}, {1, 1, 0, 0, 1, 0}},
                            all_arcs[] = {{63, 63, 0, 10000, 15, 0}},
                            rest_arcs[] = {{0, 1, 9, 0, 1, 0}, {0, 2, 1, 0, 0, 0}, {2, 2, 0, 5, 0, 0}, {2, 0, 0, 0, 3, 0}};

    read_exactly("every form", knee_hoa, knee_dimacs, knee, knee_arcs);
    read_exactly("the least texts", "HOA: v1\nStates: 1\nStart: 0\nAP: 0\nAcceptance: 0 t\n--BODY--\n--END--\n", "p sp 1 0\n", least, NULL);
    read_exactly("example G", "HOA: v1\nStates: 2\nStart: 0\nAP: 0\nAcceptance: 1 Inf(0)\n--BODY--\nState: 0\n[t] 0\n[t] 1\nState: 1\n"
        "[t] 1 {0}\n--END--\n", "p sp 2 3\na 1 1 1\na 1 2 -5\na 2 2 0\n", g, g_arcs);
    read_exactly("the greatest modes and colours", "HOA: v1\nStates: 64\nStart: 63\nAP: 0\nAcceptance: 4 Inf(0)&Inf(1)&Inf(2)&Inf(3)\n"
        "--BODY--\nState: 63\n[t] 63 {3 2 0 1}\n--END--\n", "p sp 64 1\na 64 64 10000\n", all, all_arcs);
    read_exactly("the example of docs/C-API.md", "HOA: v1\nStates: 3\nStart: 0\nAP: 0\nAcceptance: 2 Inf(0)&Inf(1)\n--BODY--\nState: 0\n"
        "[t] 1 {0}\n[t] 2\nState: 2\n[t] 2 {}\n[t] 0 {1 0 1}\n--END--\n", "c a knee that rests\np sp 3 4\na 1 2 -9\na 1 3 -1\na 3 3 5\n"
        "a 3 1 0\n", rest, rest_arcs);
    read_strings("no texts", "", "", CHARGEPLAN_HOA_LINE, 1);
    read_strings("no HOA text", "", knee_dimacs, CHARGEPLAN_HOA_LINE, 1);
    read_strings("no DIMACS text", knee_hoa, "", CHARGEPLAN_DIMACS_LINE, 1);
    read_strings("the texts exchanged", knee_dimacs, knee_hoa, CHARGEPLAN_HOA_LINE, 1);
    read_strings("the HOA text twice", knee_hoa, knee_hoa, CHARGEPLAN_DIMACS_LINE, 1);
}

/* A line of a text, counted from 1, and what stands in its place. */
struct change {
    size_t line;
    const char *by;
};

/* The pair with a line of one text replaced. */
static void read_changed(int in_hoa, struct change change, uint32_t number, uint64_t detail)
{
    struct page page = {NULL, 0, 0};
    struct text hoa = as_text(knee_hoa), dimacs = as_text(knee_dimacs);

    replace_line(&page, in_hoa ? hoa : dimacs, change.line, change.by);
    if (in_hoa)
        read_as("a line of the HOA text", text_of(&page), dimacs, number, detail);
    else
        read_as("a line of the DIMACS text", hoa, text_of(&page), number, detail);
    free_page(&page);
}

/* Each of these lines may stand in the pair. */
static void right_lines(int in_hoa, const struct change *changes, size_t count)
{
    size_t i;

    for (i = 0; i < count; i++)
        read_changed(in_hoa, changes[i], CHARGEPLAN_YES, 0);
}

/* By lines of the HOA text and of the DIMACS text. */
static const struct change right_hoa[] = {
    {2, "States: 04\n"}, {2, "States: 000000004\n"}, {3, "Start: 0\n"}, {3, "Start: 000000003\n"},
    {5, "Acceptance: 02 Inf(00)&Inf(000000001)\n"}, {5, "Acceptance: 3 Inf(0)&Inf(1)&Inf(2)\n"},
    {5, "Acceptance: 000000004 Inf(000000000)&Inf(1)&Inf(02)&Inf(3)\n"}, {7, "State: 03\n"}, {7, "State: 000000003\n"},
    {8, "[t] 01\n"}, {8, "[t] 000000001\n"}, {8, "[t] 1 {}\n"}, {8, "[t] 1 {0}\n"}, {8, "[t] 1 {1 0}\n"}, {8, "[t] 1 {0 1}\n"},
    {8, "[t] 1 {1 1 1 1 1}\n"}, {8, "[t] 1 {0 1 0 1 0}\n"}, {8, "[t] 1 {000000000 01}\n"}, {9, "[t] 2\n"}, {10, ""},
    {10, "State: 2\n"}, {10, "State: 0\nState: 2\n"}, {13, "[t] 3 {}\nState: 2\n"}, {14, "State: 2\n--END--\n"},
};

static const struct change right_dimacs[] = {
    {1, ""}, {1, "c\n"}, {1, "cat\n"}, {1, "cp sp 4 4\n"}, {1, "c \t\r  \1\377\n"}, {1, "c\nc\nc\nc\n"}, {1, "ca 1 2 3\n"},
    {3, "p sp 04 000000004\n"}, {3, "p sp 000000004 4\n"}, {3, "c\np sp 4 4\n"}, {4, "a 04 000000002 -03\n"},
    {4, "a 4 2 -000000003\n"}, {4, "a 4 2 000000003\n"}, {4, "a 4 2 -0\n"}, {4, "a 4 2 -000000000\n"}, {4, "a 4 2 0\n"},
    {4, "a 4 2 10000\n"}, {4, "a 4 2 -10000\n"}, {4, "a 4 2 000010000\n"}, {4, "a 4 2 -000010000\n"},
};

void test_read_variations(void)
{
    right_lines(1, right_hoa, sizeof right_hoa / sizeof right_hoa[0]);
    right_lines(0, right_dimacs, sizeof right_dimacs / sizeof right_dimacs[0]);
}

/* Each of these lines is refused, and the detail is its own number. */
static void wrong_lines(int in_hoa, const struct change *changes, size_t count)
{
    size_t i;

    for (i = 0; i < count; i++)
        read_changed(in_hoa, changes[i], in_hoa ? CHARGEPLAN_HOA_LINE : CHARGEPLAN_DIMACS_LINE, changes[i].line);
}

/* Lines behind the last one are refused, and the first of them is the detail. */
static void behind_last(int in_hoa, struct change last, const char *const *behind, size_t count)
{
    size_t i;

    for (i = 0; i < count; i++) {
        struct page page = {NULL, 0, 0};
        struct change change = {last.line, NULL};

        add(&page, last.by);
        add(&page, behind[i]);
        add_byte(&page, 0);
        change.by = (const char *)page.bytes;
        read_changed(in_hoa, change, in_hoa ? CHARGEPLAN_HOA_LINE : CHARGEPLAN_DIMACS_LINE, last.line + 1);
        free_page(&page);
    }
}

static const struct change wrong_hoa[] = {
    {1, ""}, {1, "\n"}, {1, "HOA: v2\n"}, {1, "HOA: v1 \n"}, {1, " HOA: v1\n"}, {1, "HOA:  v1\n"}, {1, "HOA:v1\n"}, {1, "HOA: v01\n"},
    {1, "HOA: v11\n"}, {1, "hoa: v1\n"}, {1, "HOA: V1\n"}, {1, "HOA: v1\r\n"}, {1, "HOA:\tv1\n"}, {1, "HOA: v\n"}, {1, "HOA: \n"},
    {1, "HOA:\n"}, {1, "HOA v1\n"}, {1, "HOA: v1 v1\n"}, {1, "States: 4\n"}, {2, ""}, {2, "\n"}, {2, "States:\n"}, {2, "States: \n"},
    {2, "States: 4 \n"}, {2, "States:4\n"}, {2, "States:  4\n"}, {2, " States: 4\n"}, {2, "States: -4\n"}, {2, "States: +4\n"},
    {2, "States: 4a\n"}, {2, "States: 0x4\n"}, {2, "States: 0000000004\n"}, {2, "States: 4294967304\n"},
    {2, "States: 18446744073709551624\n"}, {2, "states: 4\n"}, {2, "States: 4 4\n"}, {2, "States:\t4\n"}, {2, "States: 4\r\n"},
    {2, "States: 4.0\n"}, {2, "States 4\n"}, {2, "States\n"}, {2, "States: 4\t\n"}, {2, "States: /\n"}, {2, "States: :\n"}, {3, ""},
    {3, "\n"}, {3, "Start:\n"}, {3, "Start: \n"}, {3, "Start: 3 \n"}, {3, "Start:3\n"}, {3, "Start:  3\n"}, {3, " Start: 3\n"},
    {3, "Start: -3\n"}, {3, "Start: +3\n"}, {3, "Start: 3a\n"}, {3, "Start: 0x3\n"}, {3, "Start: 0000000003\n"},
    {3, "Start: 4294967303\n"}, {3, "Start: 18446744073709551623\n"}, {3, "start: 3\n"}, {3, "Start: 3 3\n"}, {3, "Start:\t3\n"},
    {3, "Start: 3\r\n"}, {3, "Start: 3.0\n"}, {3, "Start 3\n"}, {3, "Start\n"}, {3, "Start: 3\t\n"}, {3, "Start: /\n"},
    {3, "Start: :\n"}, {3, "Start: 3&0\n"}, {4, ""}, {4, "\n"}, {4, "AP: 1\n"}, {4, "AP: 00\n"}, {4, "AP:\n"}, {4, "AP: \n"},
    {4, "AP: 0 \n"}, {4, "AP:  0\n"}, {4, "AP:0\n"}, {4, "AP: 0 a\n"}, {4, "AP: 1 \"a\"\n"}, {4, "ap: 0\n"}, {4, "AP: 0\r\n"},
    {4, "AP: -0\n"}, {5, ""}, {5, "\n"}, {5, "Acceptance: 2 Inf(0) & Inf(1)\n"}, {5, "Acceptance: 2 Inf(1)&Inf(0)\n"},
    {5, "Acceptance: 2 Inf(0)\n"}, {5, "Acceptance: 2 Inf(0)&Inf(1)&Inf(2)\n"}, {5, "Acceptance: 2 Inf(0)&Inf(0)\n"},
    {5, "Acceptance: 2 Inf(1)&Inf(1)\n"}, {5, "Acceptance: 2 t\n"}, {5, "Acceptance: 2 Inf(0)|Inf(1)\n"}, {5, "Acceptance: 2\n"},
    {5, "Acceptance: 2 \n"}, {5, "Acceptance: 2 Inf(0)&Inf(1)&\n"}, {5, "Acceptance: 2 &Inf(0)&Inf(1)\n"},
    {5, "Acceptance: 2 Inf(0)&&Inf(1)\n"}, {5, "Acceptance: 2 Inf(0)Inf(1)\n"}, {5, "Acceptance: 2 Inf( 0)&Inf(1)\n"},
    {5, "Acceptance: 2 Inf(0 )&Inf(1)\n"}, {5, "Acceptance: 2 Inf()&Inf(1)\n"}, {5, "Acceptance: 2 inf(0)&Inf(1)\n"},
    {5, "Acceptance: 2 Fin(0)&Inf(1)\n"}, {5, "Acceptance: 2 Inf(0)&Inf(1\n"}, {5, "Acceptance: 2 Inf(0)&Inf1)\n"},
    {5, "Acceptance: 2 Inf(0)&Inf(1))\n"}, {5, "Acceptance: 2 (Inf(0)&Inf(1))\n"}, {5, "Acceptance: 1 Inf(0)&Inf(1)\n"},
    {5, "Acceptance: 3 Inf(0)&Inf(1)\n"}, {5, "Acceptance: 0 Inf(0)&Inf(1)\n"}, {5, "Acceptance: 2 Inf(0000000000)&Inf(1)\n"},
    {5, "Acceptance: 2 Inf(-0)&Inf(1)\n"}, {5, "Acceptance: 2 Inf(!0)&Inf(1)\n"}, {5, "Acceptance: 2  Inf(0)&Inf(1)\n"},
    {5, "Acceptance:  2 Inf(0)&Inf(1)\n"}, {5, "Acceptance:2 Inf(0)&Inf(1)\n"}, {5, "Acceptance: 2 Inf(0)&Inf(1) \n"},
    {5, "Acceptance: -2 Inf(0)&Inf(1)\n"}, {5, "Acceptance: 0000000002 Inf(0)&Inf(1)\n"}, {5, "Acceptance: Inf(0)&Inf(1)\n"},
    {5, "acceptance: 2 Inf(0)&Inf(1)\n"}, {5, "Acceptance: 2 Inf(0)&Inf(1)\r\n"}, {5, "Acceptance: 0\n"}, {5, "Acceptance: 0 \n"},
    {5, "Acceptance: 0 f\n"}, {5, "Acceptance: 0 T\n"}, {5, "Acceptance: 0 tt\n"}, {5, "Acceptance: 0 t \n"},
    {5, "Acceptance: 0  t\n"}, {5, "Acceptance: 0 t&t\n"}, {5, "Acceptance: t\n"}, {5, "Acceptance: 1 t\n"}, {5, "Acceptance: 1 \n"},
    {5, "Acceptance: 2 Inf(4294967296)&Inf(1)\n"}, {5, "Acceptance: 2 Inf(0)&Inf(1)&t\n"},
    {5, "Acceptance: 999999999 Inf(0)&Inf(1)\n"}, {5, "Acceptance: 2 Inf(00)&Inf(10)\n"}, {6, ""}, {6, "\n"}, {6, "--BODY-- \n"},
    {6, " --BODY--\n"}, {6, "-BODY--\n"}, {6, "--BODY-\n"}, {6, "--BODY---\n"}, {6, "--body--\n"}, {6, "--END--\n"},
    {6, "--BODY--\r\n"}, {6, "acc-name: generalized-Buchi 2\n"}, {6, "BODY\n"}, {6, "State: 3\n"}, {7, "\n"}, {7, "State: 4\n"},
    {7, "State: 3 \n"}, {7, "State: 3 {0}\n"}, {7, "State: [t] 3\n"}, {7, "State: 3 \"swing\"\n"}, {7, "State: 999999999\n"},
    {7, "State: 0000000003\n"}, {7, "State:\n"}, {7, "State: \n"}, {7, "State:3\n"}, {7, "State:  3\n"}, {7, "state: 3\n"},
    {7, " State: 3\n"}, {7, "State: -3\n"}, {7, "State: +3\n"}, {7, "State: x\n"}, {7, "State: 3\r\n"}, {7, "States: 3\n"},
    {7, "--BODY--\n"}, {7, "[t] 1\n"}, {7, "[t] 3\nState: 3\n"}, {7, "State: 4294967299\n"}, {8, "\n"}, {8, "[t] 4\n"},
    {8, "[t] 999999999\n"}, {8, "[t]1\n"}, {8, "[t]  1\n"}, {8, "[t] 1 \n"}, {8, " [t] 1\n"}, {8, "[t] 1{0}\n"}, {8, "[t] 1  {0}\n"},
    {8, "[t] 1 { 0}\n"}, {8, "[t] 1 {0 }\n"}, {8, "[t] 1 { }\n"}, {8, "[t] 1 {0  1}\n"}, {8, "[t] 1 {0,1}\n"}, {8, "[t] 1 {0\t1}\n"},
    {8, "[t] 1 {2}\n"}, {8, "[t] 1 {0 2}\n"}, {8, "[t] 1 {2 0}\n"}, {8, "[t] 1 {999999999}\n"}, {8, "[t] 1 {4294967296}\n"},
    {8, "[t] 1 {-0}\n"}, {8, "[t] 1 {+1}\n"}, {8, "[t] 1 {x}\n"}, {8, "[t] 1 {0\n"}, {8, "[t] 1 {\n"}, {8, "[t] 1 0}\n"},
    {8, "[t] 1 }\n"}, {8, "[t] 1 {}}\n"}, {8, "[t] 1 {{}\n"}, {8, "[t] 1 {{0}}\n"}, {8, "[t] 1 {0} {1}\n"}, {8, "[t] 1 {0}{1}\n"},
    {8, "[t] 1 {} {}\n"}, {8, "[t] 1 {0} \n"}, {8, "[t] 1 {0}x\n"}, {8, "[t] 1 x{0}\n"}, {8, "[t] 1 (0)\n"}, {8, "[0] 1\n"},
    {8, "[f] 1\n"}, {8, "[T] 1\n"}, {8, "[ t] 1\n"}, {8, "[t ] 1\n"}, {8, "[tt] 1\n"}, {8, "[] 1\n"}, {8, "1\n"}, {8, "t 1\n"},
    {8, "[t]\n"}, {8, "[t] \n"}, {8, "[t] {0}\n"}, {8, "[t] -1\n"}, {8, "[t] +1\n"}, {8, "[t] 1 0\n"}, {8, "[t] 1 2\n"},
    {8, "[t] 1&2\n"}, {8, "[t] x\n"}, {8, "[t] 0000000001\n"}, {8, "[t] 1 {0000000000}\n"}, {8, "[t] 1\r\n"}, {8, "[t] 1 {0}\r\n"},
    {8, "[t]\t1\n"}, {8, "[t] 1\t{0}\n"}, {8, "--BODY--\n"}, {8, "State: 3\n"}, {8, "State: 03\n"}, {8, "--end--\n"}, {8, "AP: 0\n"},
    {8, "a 4 2 -3\n"}, {8, "[t] 4294967297\n"}, {14, ""}, {14, "\n"}, {14, "--END--"}, {14, "--END-- \n"}, {14, " --END--\n"},
    {14, "-END--\n"}, {14, "--END-\n"}, {14, "--END---\n"}, {14, "--end--\n"}, {14, "--ABORT--\n"}, {14, "--END--\r\n"},
    {14, "END\n"}, {14, "--END--\t\n"}, {14, "--BODY--\n"},
};

void test_read_hoa_lines(void)
{
    static const char *const behind[] = {
        "\n", "\n\n", " ", "x", "c\n", "--END--\n", "State: 2\n", "[t] 3\n", "HOA: v1\n", "\r\n", "\t", "--END--"};
    static const struct change end = {14, "--END--\n"};

    wrong_lines(1, wrong_hoa, sizeof wrong_hoa / sizeof wrong_hoa[0]);
    behind_last(1, end, behind, sizeof behind / sizeof behind[0]);
}

static const struct change wrong_dimacs[] = {
    {1, "\n"}, {1, "x\n"}, {1, " c\n"}, {1, "C a knee\n"}, {1, "\tc\n"}, {1, "%\n"}, {1, "a 4 2 -3\n"}, {3, ""}, {3, "\n"},
    {3, "p sp 4\n"}, {3, "p sp 4 \n"}, {3, "p sp 4 4 \n"}, {3, "p sp 4 4 4\n"}, {3, "p  sp 4 4\n"}, {3, "p sp  4 4\n"},
    {3, "p sp 4  4\n"}, {3, " p sp 4 4\n"}, {3, "p max 4 4\n"}, {3, "p Sp 4 4\n"}, {3, "P sp 4 4\n"}, {3, "p 4 4\n"}, {3, "sp 4 4\n"},
    {3, "psp 4 4\n"}, {3, "p sp4 4\n"}, {3, "p sp 4,4\n"}, {3, "p sp -4 4\n"}, {3, "p sp 4 -4\n"}, {3, "p sp +4 4\n"},
    {3, "p sp 4 4.0\n"}, {3, "p sp 0000000004 4\n"}, {3, "p sp 4 0000000004\n"}, {3, "p sp 4 4294967300\n"},
    {3, "p sp 4294967300 4\n"}, {3, "p sp x 4\n"}, {3, "p sp 4 x\n"}, {3, "p sp 4 4\r\n"}, {3, "p\tsp 4 4\n"}, {3, "p sp\n"},
    {3, "p\n"}, {3, "p edge 4 4\n"}, {3, "d sp 4 4\n"}, {4, "\n"}, {4, "a 0 2 -3\n"}, {4, "a 4 0 -3\n"}, {4, "a 5 2 -3\n"},
    {4, "a 4 5 -3\n"}, {4, "a 999999999 2 -3\n"}, {4, "a 4 999999999 -3\n"}, {4, "a 4 2\n"}, {4, "a 4 2 \n"}, {4, "a 4 2 -3 \n"},
    {4, "a 4 2 -3 4\n"}, {4, "a 4 2 --3\n"}, {4, "a 4 2 +3\n"}, {4, "a 4 2 - 3\n"}, {4, "a 4 2 -\n"}, {4, "a 4 2 3-\n"},
    {4, "a 4 2 -+3\n"}, {4, "a -4 2 -3\n"}, {4, "a 4 -2 -3\n"}, {4, "a 4 2 1e3\n"}, {4, "a 4 2 1.5\n"}, {4, "a 4 2 x\n"},
    {4, "a x 2 -3\n"}, {4, "a 4 x -3\n"}, {4, "a 4 2 0000000003\n"}, {4, "a 4 2 -0000000003\n"}, {4, "a 0000000004 2 -3\n"},
    {4, "a 4 0000000002 -3\n"}, {4, "a 4 2 4294967299\n"}, {4, "a 4 2 -18446744073709551619\n"}, {4, "a 4294967300 2 -3\n"},
    {4, "a  4 2 -3\n"}, {4, "a 4  2 -3\n"}, {4, "a 4 2  -3\n"}, {4, " a 4 2 -3\n"}, {4, "e 4 2 -3\n"}, {4, "A 4 2 -3\n"},
    {4, "a4 2 -3\n"}, {4, "4 2 -3\n"}, {4, "c late\n"}, {4, "c\n"}, {4, "p sp 4 4\n"}, {4, "a\t4 2 -3\n"}, {4, "a 4\t2 -3\n"},
    {4, "a 4 2\t-3\n"}, {4, "a 4 2 -3\r\n"}, {4, "a 4,2 -3\n"}, {4, "a\n"}, {4, "a 4\n"}, {4, "t 1\n"}, {4, "a 4 2 -3\t\n"}, {7, ""},
    {7, "\n"}, {7, "a 2 4 -10000"}, {7, "c\n"}, {7, "--END--\n"},
};

void test_read_dimacs_lines(void)
{
    static const char *const behind[] = {
        "\n", "\n\n", " ", "x", "c\n", "c", "a 1 1 1\n", "a 2 4 -10000\n", "p sp 4 4\n", "\r\n", "\t", "a"};
    static const struct change last = {7, "a 2 4 -10000\n"};

    wrong_lines(0, wrong_dimacs, sizeof wrong_dimacs / sizeof wrong_dimacs[0]);
    behind_last(0, last, behind, sizeof behind / sizeof behind[0]);
}
