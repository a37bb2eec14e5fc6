/* Reading: pairs of texts damaged at every byte and line, cut at every byte, with every short row in place of some words, and long ones. */
#include "texts.h"

#include <string.h>

/* A text with another in it from a place on, in place of so many bytes. */
static void splice(struct page *to, struct text from, size_t at, size_t taken, struct text by)
{
    struct text before = {from.bytes, at}, behind = {from.bytes + at + taken, from.length - at - taken};

    clear_page(to);
    add_text(to, before);
    add_text(to, by);
    add_text(to, behind);
}

/* The pair with one text damaged. */
static void read_damaged(struct text hoa, struct text dimacs, int in_hoa, const struct page *damaged)
{
    struct rooms rooms = equal_rooms(CHARGEPLAN_ARCS_MOST);

    if (in_hoa)
        read_texts("a damaged HOA text", text_of(damaged), dimacs, rooms, NULL);
    else
        read_texts("a damaged DIMACS text", hoa, text_of(damaged), rooms, NULL);
}

/* At each byte of one text: it is left out, and each of some bytes stands in its place or before it. */
static void damage_bytes(struct text hoa, struct text dimacs, int in_hoa)
{
    static const uint8_t bytes[] = "\t\n\r &()+,-./0123456789:AEHISTYabcpstvx[]{}\177\200\377"; /* and NUL */
    struct text from = in_hoa ? hoa : dimacs;
    struct page page = {NULL, 0, 0};
    size_t at, i;

    for (at = 0; at < from.length; at++) {
        struct text by = {bytes, 0};

        splice(&page, from, at, 1, by);
        read_damaged(hoa, dimacs, in_hoa, &page);
        by.length = 1;
        for (i = 0; i < sizeof bytes; i++) {
            by.bytes = bytes + i;
            splice(&page, from, at, i % 2, by);
            read_damaged(hoa, dimacs, in_hoa, &page);
            splice(&page, from, at, 1 - i % 2, by);
            read_damaged(hoa, dimacs, in_hoa, &page);
        }
    }
    free_page(&page);
}

void test_read_damaged_bytes(void)
{
    struct text hoa = as_text(knee_hoa), dimacs = as_text(knee_dimacs);

    damage_bytes(hoa, dimacs, 1);
    damage_bytes(hoa, dimacs, 0);
}

/* A line of a text, counted from 0, with its line feed; without bytes where there is none. */
static struct text line_of(struct text t, size_t line)
{
    struct text l = {t.bytes, 0};
    const uint8_t *end = t.bytes + t.length;

    for (;;) {
        const uint8_t *feed = l.bytes == end ? NULL : memchr(l.bytes, '\n', (size_t)(end - l.bytes));

        if (feed == NULL)
            return l;
        if (line-- == 0) {
            l.length = (size_t)(feed + 1 - l.bytes);
            return l;
        }
        l.bytes = feed + 1;
    }
}

static size_t line_count(struct text t)
{
    size_t count = 0;

    while (line_of(t, count).length > 0)
        count++;
    return count;
}

/* Each line of a text is left out, and each line of another stands in its place or before it. */
static void damage_lines(struct text hoa, struct text dimacs, int in_hoa, struct text others)
{
    struct text from = in_hoa ? hoa : dimacs, nothing = {NULL, 0};
    struct page page = {NULL, 0, 0};
    size_t i, j;

    for (i = 0; i < line_count(from); i++) {
        struct text line = line_of(from, i);
        size_t at = (size_t)(line.bytes - from.bytes);

        splice(&page, from, at, line.length, nothing);
        read_damaged(hoa, dimacs, in_hoa, &page);
        for (j = 0; j < line_count(others); j++) {
            splice(&page, from, at, line.length, line_of(others, j));
            read_damaged(hoa, dimacs, in_hoa, &page);
            splice(&page, from, at, 0, line_of(others, j));
            read_damaged(hoa, dimacs, in_hoa, &page);
        }
    }
    free_page(&page);
}

void test_read_damaged_lines(void)
{
    struct text hoa = as_text(knee_hoa), dimacs = as_text(knee_dimacs);

    damage_lines(hoa, dimacs, 1, hoa);
    damage_lines(hoa, dimacs, 1, dimacs);
    damage_lines(hoa, dimacs, 0, hoa);
    damage_lines(hoa, dimacs, 0, dimacs);
}

/* A text that ends early: its first line that is not whole is the detail. One that begins late is left to the plain reading. */
static void cut_text(struct text hoa, struct text dimacs, int in_hoa)
{
    struct text from = in_hoa ? hoa : dimacs;
    struct page page = {NULL, 0, 0};
    size_t at, line = 1;

    for (at = 0; at < from.length; at++) {
        struct text before = {from.bytes, at}, behind = {from.bytes + at, from.length - at};

        read_as("a text that ends early", in_hoa ? before : hoa, in_hoa ? dimacs : before,
            in_hoa ? CHARGEPLAN_HOA_LINE : CHARGEPLAN_DIMACS_LINE, line);
        clear_page(&page);
        add_text(&page, behind);
        read_damaged(hoa, dimacs, in_hoa, &page);
        line += from.bytes[at] == '\n';
    }
    free_page(&page);
}

void test_read_cut_texts(void)
{
    static const struct style plainly = {1, 0}, with_zeros = {9, 0};
    struct pair p = {{NULL, 0, 0}, {NULL, 0, 0}};
    struct model g = model_g();

    cut_text(as_text(knee_hoa), as_text(knee_dimacs), 1);
    cut_text(as_text(knee_hoa), as_text(knee_dimacs), 0);
    print_model(&p, &g, plainly);
    cut_text(text_of(&p.hoa), text_of(&p.dimacs), 1);
    cut_text(text_of(&p.hoa), text_of(&p.dimacs), 0);
    print_model(&p, &g, with_zeros);
    cut_text(text_of(&p.hoa), text_of(&p.dimacs), 1);
    cut_text(text_of(&p.hoa), text_of(&p.dimacs), 0);
    free_pair(&p);
}

/* Some words of the knee's HOA or DIMACS text, and the parts of the rows that stand in their place. */
struct place {
    int in_hoa;
    const char *words;
    const char *parts[9]; /* up to a null pointer */
    unsigned most;
};

/* Adds the row of this number and length: the digits of the number choose its parts. */
static void add_row(struct page *to, const struct place *p, unsigned parts, unsigned length, unsigned long number)
{
    for (; length > 0; length--) {
        add(to, p->parts[number % parts]);
        number /= parts;
    }
}

/* Every row of this length, of which there are so many. */
static void read_rows(const struct place *p, unsigned parts, unsigned length, unsigned long rows)
{
    struct text hoa = as_text(knee_hoa), dimacs = as_text(knee_dimacs), from = p->in_hoa ? hoa : dimacs;
    const char *knee = p->in_hoa ? knee_hoa : knee_dimacs;
    size_t at = (size_t)(strstr(knee, p->words) - knee);
    struct page row = {NULL, 0, 0}, page = {NULL, 0, 0};
    unsigned long number;

    for (number = 0; number < rows; number++) {
        clear_page(&row);
        add_row(&row, p, parts, length, number);
        splice(&page, from, at, strlen(p->words), text_of(&row));
        read_damaged(hoa, dimacs, p->in_hoa, &page);
    }
    free_page(&row);
    free_page(&page);
}

/* Every row up to the greatest length. */
static void read_all_rows(const struct place *p)
{
    unsigned parts = 0, length;
    unsigned long rows = 1;

    while (p->parts[parts] != NULL)
        parts++;
    for (length = 0; length <= p->most; length++) {
        read_rows(p, parts, length, rows);
        rows *= parts;
    }
}

void test_read_rows(void)
{
    static const struct place places[] = {
        {1, " {0}", {" ", "{", "}", "0", "1", "\n", NULL}, 5},
        {1, "2 Inf(0)&Inf(1)", {"0", "1", "2", " ", "t", "&", "Inf(", ")", NULL}, 4},
        {1, "2 Inf(0)&Inf(1)", {"1", "2", " ", "&", "Inf(0)", "Inf(1)", NULL}, 5},
        {1, "State: 0\n", {"State:", "[t]", " ", "0", "3", "\n", NULL}, 4},
        {1, "--END--\n", {"--END--", "\n", " ", "-", "State: 2", NULL}, 4},
        {0, "-3", {"-", "+", "0", "1", " ", "\n", NULL}, 4},
        {0, "p sp 4 4\n", {"p ", "sp ", "4 ", "4", "\n", "c", NULL}, 5},
    };
    size_t i;

    for (i = 0; i < sizeof places / sizeof places[0]; i++)
        read_all_rows(&places[i]);
}

/* Reading a pair that is too long for the plain reading. */
static void read_long(const char *what, const struct pair *p, uint32_t number, uint64_t detail)
{
    uint8_t bytes[4][4] = {{7, 7, 7, 7}, {7, 7, 7, 7}, {7, 7, 7, 7}, {7, 7, 7, 7}}, before[4][4];
    uint16_t words_lent[2][4] = {{7, 7, 7, 7}, {7, 7, 7, 7}}, words_before[2][4];
    struct chargeplan_reading r;

    memcpy(before, bytes, sizeof bytes);
    memcpy(words_before, words_lent, sizeof words_lent);
    r = chargeplan_read(p->hoa.bytes, p->hoa.length, p->dimacs.bytes, p->dimacs.length, bytes[0], 4, bytes[1], 4, words_lent[0], 4,
        words_lent[1], 4, bytes[2], 4, bytes[3], 4);
    check(r.number == number && r.detail == detail && r.m == (number == CHARGEPLAN_YES), what);
    if (number != CHARGEPLAN_YES)
        check(same(bytes, before, sizeof bytes) && same(words_lent, words_before, sizeof words_lent), what);
}

/* Adds words so many times. */
static void repeat(struct page *to, const char *string, unsigned long times)
{
    for (; times > 0; times--)
        add(to, string);
}

static const char one_mode[] = "HOA: v1\nStates: 1\nStart: 0\nAP: 0\nAcceptance: 1 Inf(0)\n--BODY--\nState: 0\n";

/* More comments than 24 bits can count, where so many are asked for, before a right and a wrong line. */
static void test_many_comments(unsigned long lines)
{
    struct pair p = {{NULL, 0, 0}, {NULL, 0, 0}};

    add(&p.hoa, one_mode);
    add(&p.hoa, "[t] 0\n--END--\n");
    repeat(&p.dimacs, "c\n", lines);
    add(&p.dimacs, "p sp 1 1\na 1 1 1\n");
    read_long("many comments", &p, CHARGEPLAN_YES, 0);
    p.dimacs.bytes[p.dimacs.length - 2] = 'x';
    read_long("20: behind many comments", &p, CHARGEPLAN_DIMACS_LINE, (uint64_t)lines + 2);
    p.dimacs.length = 2 * lines;
    read_long("20: nothing behind many comments", &p, CHARGEPLAN_DIMACS_LINE, (uint64_t)lines + 1);
    p.dimacs.bytes[2 * (lines - 1)] = '\n';
    read_long("20: an empty line behind many comments", &p, CHARGEPLAN_DIMACS_LINE, lines);
    free_pair(&p);
}

/* Many edges, of which the last has another target, or is wrong. */
static void test_many_edges(unsigned long edges)
{
    struct pair p = {{NULL, 0, 0}, {NULL, 0, 0}};

    add(&p.hoa, "HOA: v1\nStates: 2\nStart: 0\nAP: 0\nAcceptance: 1 Inf(0)\n--BODY--\nState: 0\n");
    repeat(&p.hoa, "[t] 1 {}\n", edges);
    add(&p.hoa, "--END--\n");
    add(&p.dimacs, "p sp 2 ");
    add_number(&p.dimacs, (uint32_t)edges, 1);
    add(&p.dimacs, "\n");
    repeat(&p.dimacs, "a 1 2 3\n", edges);
    read_long("3: many edges", &p, CHARGEPLAN_ARC_LISTS, 0);
    p.dimacs.bytes[p.dimacs.length - 4] = '1';
    read_long("21: the last of many edges", &p, CHARGEPLAN_TEXTS_DISAGREE, 0);
    p.dimacs.bytes[p.dimacs.length - 4] = '3';
    read_long("20: the last of many edges", &p, CHARGEPLAN_DIMACS_LINE, (uint64_t)edges + 1);
    p.hoa.bytes[p.hoa.length - 10] = '{';
    read_long("19: the last of many edges", &p, CHARGEPLAN_HOA_LINE, (uint64_t)edges + 7);
    free_pair(&p);
}

/* One line with many colours, and one with a long comment. */
static void test_long_lines(unsigned long bytes)
{
    struct pair p = {{NULL, 0, 0}, {NULL, 0, 0}};

    add(&p.hoa, one_mode);
    add(&p.hoa, "[t] 0 {0");
    repeat(&p.hoa, " 0", bytes / 2);
    add(&p.hoa, "}\n--END--\n");
    add(&p.dimacs, "c");
    repeat(&p.dimacs, "{", bytes);
    add(&p.dimacs, "\np sp 1 1\na 1 1 1\n");
    read_long("long lines", &p, CHARGEPLAN_YES, 0);
    p.hoa.bytes[p.hoa.length - 11] = '1';
    read_long("19: the last of many colours", &p, CHARGEPLAN_HOA_LINE, 8);
    free_pair(&p);
}

void test_read_long_texts(unsigned long lines)
{
    test_many_comments(lines);
    test_many_edges(lines / 40);
    test_long_lines(lines);
}
