#include "plain_reader.h"

#include <stdio.h>
#include <stdlib.h>
#include <string.h>

/* A text cut into parts. */
struct parts {
    struct text *at;
    size_t count;
};

static void *block(size_t bytes)
{
    void *b = malloc(bytes == 0 ? 1 : bytes);

    if (b == NULL) {
        printf("no memory\n");
        exit(1);
    }
    return b;
}

static size_t count_of(struct text t, uint8_t byte)
{
    size_t i, count = 0;

    for (i = 0; i < t.length; i++)
        count += t.bytes[i] == byte;
    return count;
}

/* Cuts a text at each such byte, which then stands in no part: there is one part more than there are such bytes. */
static struct parts cut(struct text t, uint8_t byte)
{
    struct parts p = {NULL, count_of(t, byte) + 1};
    size_t i, begin = 0, part = 0;

    p.at = block(p.count * sizeof *p.at);
    for (i = 0; i <= t.length; i++)
        if (i == t.length || t.bytes[i] == byte) {
            p.at[part].bytes = t.bytes == NULL ? NULL : t.bytes + begin;
            p.at[part].length = i - begin;
            begin = i + 1;
            part++;
        }
    return p;
}

static int is(struct text t, const char *word)
{
    return t.length == strlen(word) && (t.length == 0 || memcmp(t.bytes, word, t.length) == 0);
}

static int begins(struct text t, const char *word)
{
    return t.length >= strlen(word) && memcmp(t.bytes, word, strlen(word)) == 0;
}

/* What is left of a text without bytes at its two ends, which it has. */
static struct text between(struct text t, size_t front, size_t back)
{
    struct text inner = {t.bytes + front, t.length - front - back};
    return inner;
}

/* "plain numbers have one to nine digits". */
static int is_number(struct text t)
{
    size_t i;

    if (t.length < 1 || t.length > 9)
        return 0;
    for (i = 0; i < t.length; i++)
        if (t.bytes[i] < '0' || t.bytes[i] > '9')
            return 0;
    return 1;
}

static uint32_t number_of(struct text t)
{
    uint32_t value = 0;
    size_t i;

    for (i = 0; i < t.length; i++)
        value = value * 10 + (uint32_t)(t.bytes[i] - '0');
    return value;
}

/* A number from least up to most; it is handed back in value. */
static int is_number_in(struct text t, uint32_t least, uint64_t most, uint32_t *value)
{
    if (!is_number(t))
        return 0;
    *value = number_of(t);
    return *value >= least && *value <= most;
}

/* A number below the end. */
static int is_number_below(struct text t, uint32_t end, uint32_t *value)
{
    return end > 0 && is_number_in(t, 0, end - 1, value);
}

/* "a minus before w is allowed". */
static int is_weight(struct text t, int64_t *weight)
{
    int negative = begins(t, "-");
    struct text size = negative ? between(t, 1, 0) : t;

    if (!is_number(size))
        return 0;
    *weight = negative ? -(int64_t)number_of(size) : (int64_t)number_of(size);
    return 1;
}

/* An edge of the HOA text. */
struct edge {
    uint32_t source, target, colours;
};

/* What has been read of a HOA text: blocks are the modes that have had a State line, of which the last is the source of the next edge. */
struct hoa {
    uint32_t n, start, k;
    int ended;
    uint32_t *blocks;
    size_t block_count;
    struct edge *edges;
    size_t edge_count;
};

/* A line of a word and a number. */
static int is_numbered(struct parts fields, const char *word, uint32_t *value)
{
    return fields.count == 2 && is(fields.at[0], word) && is_number_in(fields.at[1], 0, UINT32_MAX, value);
}

/* `Inf(0)` to `Inf(k-1)` in order. */
static int are_infs(struct parts infs, uint32_t k)
{
    size_t i;
    uint32_t number;

    if (infs.count != k)
        return 0;
    for (i = 0; i < infs.count; i++) {
        struct text inf = infs.at[i];

        if (!begins(inf, "Inf(") || inf.bytes[inf.length - 1] != ')' || !is_number_in(between(inf, 4, 1), (uint32_t)i, i, &number))
            return 0;
    }
    return 1;
}

/* "with a bare `&` between (`0 t` for none)". */
static int is_acceptance(struct hoa *h, struct parts fields)
{
    struct parts infs;
    int fits;

    if (fields.count != 3 || !is(fields.at[0], "Acceptance:") || !is_number_in(fields.at[1], 0, UINT32_MAX, &h->k))
        return 0;
    if (h->k == 0)
        return is(fields.at[2], "t");
    infs = cut(fields.at[2], '&');
    fits = are_infs(infs, h->k);
    free(infs.at);
    return fits;
}

static int is_head(struct hoa *h, size_t line, struct parts fields)
{
    switch (line) {
    case 0: return fields.count == 2 && is(fields.at[0], "HOA:") && is(fields.at[1], "v1");
    case 1: return is_numbered(fields, "States:", &h->n);
    case 2: return is_numbered(fields, "Start:", &h->start);
    case 3: return fields.count == 2 && is(fields.at[0], "AP:") && is(fields.at[1], "0");
    case 4: return is_acceptance(h, fields);
    default: return fields.count == 1 && is(fields.at[0], "--BODY--");
    }
}

/* "one block at most for each state". */
static int is_new_block(struct hoa *h, struct text field)
{
    uint32_t mode;
    size_t i;

    if (!is_number_below(field, h->n, &mode))
        return 0;
    for (i = 0; i < h->block_count; i++)
        if (h->blocks[i] == mode)
            return 0;
    h->blocks[h->block_count++] = mode;
    return 1;
}

/* "Braces may be empty or repeat a colour, in any order, and each colour is below k". What stands between the braces, cut at blanks. */
static int are_colours(const struct hoa *h, struct parts inner, uint32_t *colours)
{
    uint32_t colour;
    size_t i;

    *colours = 0;
    if (inner.count == 1 && is(inner.at[0], ""))
        return 1;
    for (i = 0; i < inner.count; i++) {
        if (!is_number_below(inner.at[i], h->k, &colour))
            return 0;
        /* A model with a higher colour is refused by 4. */
        if (colour < 32)
            *colours |= (uint32_t)1 << colour;
    }
    return 1;
}

/* The fields behind the target: none, or braces with the colours between them. */
static int are_braces(const struct hoa *h, struct parts fields, uint32_t *colours)
{
    struct text *last;

    *colours = 0;
    if (fields.count == 0)
        return 1;
    if (!begins(fields.at[0], "{"))
        return 0;
    fields.at[0] = between(fields.at[0], 1, 0);
    last = &fields.at[fields.count - 1];
    if (last->length == 0 || last->bytes[last->length - 1] != '}')
        return 0;
    *last = between(*last, 0, 1);
    return are_colours(h, fields, colours);
}

/* `[t] target {colours}`, in a block. */
static int is_edge(struct hoa *h, struct parts fields)
{
    struct edge *e = &h->edges[h->edge_count];
    struct parts behind;

    if (h->block_count == 0 || fields.count < 2 || !is(fields.at[0], "[t]") || !is_number_below(fields.at[1], h->n, &e->target))
        return 0;
    behind.at = fields.at + 2;
    behind.count = fields.count - 2;
    if (!are_braces(h, behind, &e->colours))
        return 0;
    e->source = h->blocks[h->block_count - 1];
    h->edge_count++;
    return 1;
}

static int is_body(struct hoa *h, struct parts fields)
{
    if (h->ended)
        return 0;
    if (fields.count == 1 && is(fields.at[0], "--END--")) {
        h->ended = 1;
        return 1;
    }
    if (fields.count == 2 && is(fields.at[0], "State:"))
        return is_new_block(h, fields.at[1]);
    return is_edge(h, fields);
}

/* A line of the HOA text, counted from 0. */
static int is_hoa_line(struct hoa *h, size_t line, struct text t)
{
    struct parts fields = cut(t, ' ');
    int fits = line < 6 ? is_head(h, line, fields) : is_body(h, fields);

    free(fields.at);
    return fits;
}

/* The first line outside the forms or missing, counted from 1; 0 where there is none. What is behind the last line feed has to be empty. */
static uint64_t hoa_wrong(struct hoa *h, struct parts lines)
{
    size_t i;

    h->blocks = block(lines.count * sizeof *h->blocks);
    h->edges = block(lines.count * sizeof *h->edges);
    for (i = 0; i + 1 < lines.count; i++)
        if (!is_hoa_line(h, i, lines.at[i]))
            return i + 1;
    return h->ended && is(lines.at[i], "") ? 0 : lines.count;
}

/* A line of the DIMACS text with its weight, modes counted from 0. */
struct weighed {
    uint32_t source, target;
    int64_t weight;
};

/* What has been read of a DIMACS text. */
struct dimacs {
    int has_problem;
    uint32_t n, m;
    struct weighed *arcs;
    size_t arc_count;
};

static int is_problem(struct dimacs *d, struct parts fields)
{
    d->has_problem = fields.count == 4 && is(fields.at[0], "p") && is(fields.at[1], "sp")
        && is_number_in(fields.at[2], 0, UINT32_MAX, &d->n) && is_number_in(fields.at[3], 0, UINT32_MAX, &d->m);
    return d->has_problem;
}

/* "(in `a` lines, from 1 to n)". */
static int is_weighed(struct dimacs *d, struct parts fields)
{
    struct weighed *a = &d->arcs[d->arc_count];

    if (d->arc_count == d->m || fields.count != 4 || !is(fields.at[0], "a") || !is_number_in(fields.at[1], 1, d->n, &a->source)
        || !is_number_in(fields.at[2], 1, d->n, &a->target) || !is_weight(fields.at[3], &a->weight))
        return 0;
    a->source--;
    a->target--;
    d->arc_count++;
    return 1;
}

static int is_dimacs_line(struct dimacs *d, struct text t)
{
    struct parts fields;
    int fits;

    if (!d->has_problem && begins(t, "c"))
        return 1;
    fields = cut(t, ' ');
    fits = d->has_problem ? is_weighed(d, fields) : is_problem(d, fields);
    free(fields.at);
    return fits;
}

/* As of the HOA text. */
static uint64_t dimacs_wrong(struct dimacs *d, struct parts lines)
{
    size_t i;

    d->arcs = block(lines.count * sizeof *d->arcs);
    for (i = 0; i + 1 < lines.count; i++)
        if (!is_dimacs_line(d, lines.at[i]))
            return i + 1;
    return d->has_problem && d->arc_count == d->m && is(lines.at[i], "") ? 0 : lines.count;
}

/* "texts that disagree in n, m or an edge's ends". */
static int disagree(const struct hoa *h, const struct dimacs *d)
{
    size_t i;

    if (h->n != d->n || h->edge_count != d->m)
        return 1;
    for (i = 0; i < h->edge_count; i++)
        if (h->edges[i].source != d->arcs[i].source || h->edges[i].target != d->arcs[i].target)
            return 1;
    return 0;
}

static struct reading answer(uint32_t number, uint64_t detail)
{
    struct reading r = {number, detail, 0, 0, 0, 0};
    return r;
}

/* 1 to 5 of a model that both texts have. */
static struct reading fitness(const struct hoa *h, const struct dimacs *d, size_t room)
{
    size_t i;

    if (h->n == 0 || h->n > 64)
        return answer(1, 0);
    if (h->start >= h->n)
        return answer(2, 0);
    if (d->m > FILLED_ARCS_MOST || d->m > room)
        return answer(3, 0);
    if (h->k > 4)
        return answer(4, 0);
    for (i = 0; i < d->m; i++)
        if (d->arcs[i].weight < -10000 || d->arcs[i].weight > 10000)
            return answer(5, i);
    return answer(0, 0);
}

static void write_arcs(const struct hoa *h, const struct dimacs *d, struct arc *arcs)
{
    size_t i;

    for (i = 0; i < d->m; i++) {
        int64_t weight = d->arcs[i].weight;

        arcs[i].source = h->edges[i].source;
        arcs[i].target = h->edges[i].target;
        arcs[i].draw = (uint32_t)(weight < 0 ? -weight : 0);
        arcs[i].gain = (uint32_t)(weight < 0 ? 0 : weight);
        arcs[i].colours = h->edges[i].colours;
        arcs[i].action = 0;
    }
}

/* The answer by what stands in both texts, in the order of the numbers. */
static struct reading read_lines(struct hoa *h, struct parts hoa_lines, struct dimacs *d, struct parts dimacs_lines, size_t room,
    struct arc *arcs)
{
    uint64_t hoa_line = hoa_wrong(h, hoa_lines), dimacs_line = dimacs_wrong(d, dimacs_lines);
    struct reading r;

    if (hoa_line > 0)
        return answer(19, hoa_line);
    if (dimacs_line > 0)
        return answer(20, dimacs_line);
    if (disagree(h, d))
        return answer(21, 0);
    r = fitness(h, d, room);
    if (r.number == 0) {
        r.n = h->n;
        r.start = h->start;
        r.k = h->k;
        r.m = d->m;
        write_arcs(h, d, arcs);
    }
    return r;
}

struct reading plain_read(struct text hoa, struct text dimacs, size_t room, struct arc arcs[FILLED_ARCS_MOST])
{
    static const struct hoa no_hoa;
    static const struct dimacs no_dimacs;
    struct hoa h = no_hoa;
    struct dimacs d = no_dimacs;
    struct parts hoa_lines = cut(hoa, '\n'), dimacs_lines = cut(dimacs, '\n');
    struct reading r = read_lines(&h, hoa_lines, &d, dimacs_lines, room, arcs);

    free(hoa_lines.at);
    free(dimacs_lines.at);
    free(h.blocks);
    free(h.edges);
    free(d.arcs);
    return r;
}
