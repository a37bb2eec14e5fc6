#include "texts.h"

#include <inttypes.h>
#include <stdio.h>
#include <stdlib.h>
#include <string.h>

static void make_room(struct page *to, size_t more)
{
    if (to->room - to->length >= more)
        return;
    to->room = 2 * (to->length + more);
    to->bytes = realloc(to->bytes, to->room);
    if (to->bytes == NULL) {
        printf("no memory\n");
        exit(1);
    }
}

void add_byte(struct page *to, uint8_t byte)
{
    make_room(to, 1);
    to->bytes[to->length++] = byte;
}

void add_text(struct page *to, struct text t)
{
    if (t.length == 0)
        return;
    make_room(to, t.length);
    memcpy(to->bytes + to->length, t.bytes, t.length);
    to->length += t.length;
}

void add(struct page *to, const char *string)
{
    add_text(to, as_text(string));
}

void add_number(struct page *to, uint32_t number, unsigned digits)
{
    char string[24];

    snprintf(string, sizeof string, "%0*" PRIu32, (int)digits, number);
    add(to, string);
}

void clear_page(struct page *p)
{
    p->length = 0;
}

void free_page(struct page *p)
{
    free(p->bytes);
    p->bytes = NULL;
    p->length = p->room = 0;
}

struct text text_of(const struct page *p)
{
    struct text t = {p->bytes, p->length};
    return t;
}

struct text as_text(const char *string)
{
    struct text t = {(const uint8_t *)string, strlen(string)};
    return t;
}

void replace_line(struct page *to, struct text from, size_t line, const char *by)
{
    size_t i, at = 1;

    clear_page(to);
    for (i = 0; i < from.length; i++) {
        if (at != line)
            add_byte(to, from.bytes[i]);
        if (from.bytes[i] != '\n')
            continue;
        if (at == line)
            add(to, by);
        at++;
    }
}

void clear_pair(struct pair *p)
{
    clear_page(&p->hoa);
    clear_page(&p->dimacs);
}

void free_pair(struct pair *p)
{
    free_page(&p->hoa);
    free_page(&p->dimacs);
}

/* Zeros in front of a number, at random in a free style. */
static unsigned digits_of(struct style style)
{
    return style.free && below(4) == 0 ? 1 + below(9) : style.digits;
}

static void print_number(struct page *to, uint32_t number, struct style style)
{
    add_number(to, number, digits_of(style));
}

static void print_line(struct page *to, const char *word, uint32_t number, struct style style)
{
    add(to, word);
    print_number(to, number, style);
    add(to, "\n");
}

static void print_acceptance(struct page *to, uint32_t k, struct style style)
{
    uint32_t j;

    add(to, "Acceptance: ");
    print_number(to, k, style);
    add(to, k == 0 ? " t\n" : " ");
    for (j = 0; j < k; j++) {
        add(to, "Inf(");
        print_number(to, j, style);
        add(to, j + 1 < k ? ")&" : ")\n");
    }
}

/* The colours of an arc; in a free style in another order, and some of them again. */
static void print_colours(struct page *to, uint32_t colours, struct style style)
{
    uint32_t first = style.free ? below(4) : 0, step = style.free && below(2) ? 3 : 1, places = style.free ? 4 + below(5) : 4, i;
    const char *before = "";

    for (i = 0; i < places; i++) {
        uint32_t j = (first + i * step) % 4;

        if (colours >> j & 1) {
            add(to, before);
            print_number(to, j, style);
            before = " ";
        }
    }
}

static void print_edge(struct page *to, uint32_t target, uint32_t colours, struct style style)
{
    add(to, "[t] ");
    print_number(to, target, style);
    if (colours != 0 || (style.free && below(2))) {
        add(to, " {");
        print_colours(to, colours, style);
        add(to, "}");
    }
    add(to, "\n");
}

static int has_arcs(const struct model *m, uint32_t mode)
{
    size_t a;

    for (a = 0; a < m->sources_length; a++)
        if (m->sources[a] == mode)
            return 1;
    return 0;
}

/* A block without edges, now and then, of a mode that has no arcs and has had none. */
static void print_empty_block(struct page *to, const struct model *m, uint64_t *printed, struct style style)
{
    uint32_t mode = below(CHARGEPLAN_MODES_MOST);

    if (!style.free || mode >= m->n || (*printed >> mode & 1) || has_arcs(m, mode))
        return;
    *printed |= (uint64_t)1 << mode;
    print_line(to, "State: ", mode, style);
}

static void print_body(struct page *to, const struct model *m, struct style style)
{
    uint64_t printed = 0;
    size_t a;

    for (a = 0; a < m->sources_length; a++) {
        if (a == 0 || m->sources[a] != m->sources[a - 1]) {
            print_empty_block(to, m, &printed, style);
            print_line(to, "State: ", m->sources[a], style);
        }
        print_edge(to, m->targets[a], m->colours[a], style);
    }
    print_empty_block(to, m, &printed, style);
}

static void print_comments(struct page *to, struct style style)
{
    static const char *const comments[] = {"c\n", "c a knee\n", "cat\n", "c p sp 1 1\n", "c  \t\r\n", "c\377\1 {}\n"};

    while (style.free && below(3) == 0)
        add(to, comments[below(sizeof comments / sizeof comments[0])]);
}

/* An arc as the text has it, with modes counted from 1. A weight of 0 may have a minus. */
static void print_weighed(struct page *to, const struct model *m, size_t a, struct style style)
{
    int negative = m->draws[a] > 0 || (m->gains[a] == 0 && style.free && below(2));

    add(to, "a ");
    print_number(to, m->sources[a] + 1u, style);
    add(to, " ");
    print_number(to, m->targets[a] + 1u, style);
    add(to, negative ? " -" : " ");
    print_number(to, m->draws[a] > 0 ? m->draws[a] : m->gains[a], style);
    add(to, "\n");
}

static void print_weights(struct page *to, const struct model *m, struct style style)
{
    size_t a;

    print_comments(to, style);
    add(to, "p sp ");
    print_number(to, m->n, style);
    print_line(to, " ", (uint32_t)m->sources_length, style);
    for (a = 0; a < m->sources_length; a++)
        print_weighed(to, m, a, style);
}

void print_model(struct pair *to, const struct model *m, struct style style)
{
    clear_pair(to);
    add(&to->hoa, "HOA: v1\n");
    print_line(&to->hoa, "States: ", m->n, style);
    print_line(&to->hoa, "Start: ", m->start, style);
    add(&to->hoa, "AP: 0\n");
    print_acceptance(&to->hoa, m->k, style);
    add(&to->hoa, "--BODY--\n");
    print_body(&to->hoa, m, style);
    add(&to->hoa, "--END--\n");
    print_weights(&to->dimacs, m, style);
}

const char knee_hoa[] = "HOA: v1\n"
                        "States: 4\n"
                        "Start: 3\n"
                        "AP: 0\n"
                        "Acceptance: 2 Inf(0)&Inf(1)\n"
                        "--BODY--\n"
                        "State: 3\n"
                        "[t] 1\n"
                        "[t] 2 {0}\n"
                        "State: 0\n"
                        "State: 1\n"
                        "[t] 3 {1 0}\n"
                        "[t] 3 {}\n"
                        "--END--\n";

const char knee_dimacs[] = "c a knee\n"
                           "c\n"
                           "p sp 4 4\n"
                           "a 4 2 -3\n"
                           "a 4 3 9\n"
                           "a 2 4 0\n"
                           "a 2 4 -10000\n";
