/*
 * Reading in C, to compare the library with: one pass over each text, the ends, colours and weights of the first 255 arcs kept on the
 * stack, no heap. It answers as the library does, for all texts. The entry is REFERENCE_read, where the build names REFERENCE.
 */
#include <stdbool.h>
#include <stddef.h>
#include <stdint.h>
#include <string.h>

#include "chargeplan.h"
#include "reference.h"

#define PASTE_NAMES(a, b) a##b
#define PASTE(a, b) PASTE_NAMES(a, b)

enum { DIGITS_MOST = 9, WEIGHT_MOST = 10000 };

/* Where a text is being read, and its end. */
struct cursor {
    const uint8_t *at;
    const uint8_t *end;
};

/* The arcs of a HOA text that are kept. */
struct edges {
    uint64_t count;
    uint32_t sources[CHARGEPLAN_ARCS_MOST];
    uint32_t targets[CHARGEPLAN_ARCS_MOST];
    uint8_t colours[CHARGEPLAN_ARCS_MOST];
};

struct hoa {
    uint32_t n;
    uint32_t start;
    uint32_t k;
    struct edges edges;
    const uint8_t *body; /* the first line behind --BODY-- */
    uint64_t blocks;     /* the modes below 64 that have had a block, a bit each */
    bool in_block;
    uint32_t source;        /* of the block */
    struct cursor unkept;   /* behind the last edge that is kept */
    uint32_t unkept_source; /* the source there */
};

/* The arcs of a DIMACS text that are kept. */
struct dimacs {
    uint32_t n;
    uint32_t m;
    uint32_t sources[CHARGEPLAN_ARCS_MOST];
    uint32_t targets[CHARGEPLAN_ARCS_MOST];
    int32_t weights[CHARGEPLAN_ARCS_MOST];
    struct cursor unkept; /* behind the last arc that is kept */
};

/* The word is next; the cursor moves behind it. */
static bool take_word(struct cursor *c, const char *word, size_t length)
{
    if ((size_t)(c->end - c->at) < length || memcmp(c->at, word, length) != 0)
        return false;
    c->at += length;
    return true;
}

#define TAKE(c, word) take_word(c, word, sizeof word - 1)

static bool take_byte(struct cursor *c, char byte)
{
    if (c->at == c->end || *c->at != (uint8_t)byte)
        return false;
    c->at++;
    return true;
}

/* One to nine digits are next. */
static bool take_number(struct cursor *c, uint32_t *value)
{
    const uint8_t *first = c->at;
    uint32_t number = 0;

    while (c->at < c->end && c->at - first < DIGITS_MOST && *c->at >= '0' && *c->at <= '9')
        number = number * 10 + (uint32_t)(*c->at++ - '0');
    *value = number;
    return c->at > first;
}

/* A number with a minus before it or none. */
static bool take_weight(struct cursor *c, int32_t *weight)
{
    bool negative = take_byte(c, '-');
    uint32_t size;

    if (!take_number(c, &size))
        return false;
    *weight = negative ? -(int32_t)size : (int32_t)size;
    return true;
}

static bool take_acceptance(struct cursor *c, uint32_t *k)
{
    if (!TAKE(c, "Acceptance: ") || !take_number(c, k) || !take_byte(c, ' '))
        return false;
    if (*k == 0)
        return TAKE(c, "t\n");
    for (uint32_t i = 0; i < *k; i++) {
        uint32_t number;
        if ((i > 0 && !take_byte(c, '&')) || !TAKE(c, "Inf(") || !take_number(c, &number) || number != i || !take_byte(c, ')'))
            return false;
    }
    return take_byte(c, '\n');
}

/* The first line of the head that is wrong, or 0. */
static uint64_t take_head(struct cursor *c, struct hoa *h)
{
    if (!TAKE(c, "HOA: v1\n"))
        return 1;
    if (!TAKE(c, "States: ") || !take_number(c, &h->n) || !take_byte(c, '\n'))
        return 2;
    if (!TAKE(c, "Start: ") || !take_number(c, &h->start) || !take_byte(c, '\n'))
        return 3;
    if (!TAKE(c, "AP: 0\n"))
        return 4;
    if (!take_acceptance(c, &h->k))
        return 5;
    return TAKE(c, "--BODY--\n") ? 0 : 6;
}

/* Whether a line of the body before `end` opens a block of the mode. */
static bool has_block(const uint8_t *body, const uint8_t *end, uint32_t mode)
{
    struct cursor c = {body, end};

    while (c.at < c.end) {
        uint32_t other;
        if (TAKE(&c, "State: ") && take_number(&c, &other) && other == mode)
            return true;
        while (*c.at++ != '\n')
            ;
    }
    return false;
}

/* A block of a mode that has had none: by the bits where there are few modes, else by the lines before. */
static bool take_state(struct cursor *c, struct hoa *h, const uint8_t *line)
{
    uint32_t mode;

    if (!take_number(c, &mode) || !take_byte(c, '\n') || mode >= h->n)
        return false;
    if (h->n <= CHARGEPLAN_MODES_MOST) {
        if ((h->blocks >> mode & 1) != 0)
            return false;
        h->blocks |= (uint64_t)1 << mode;
    } else if (has_block(h->body, line, mode)) {
        return false;
    }
    h->source = mode;
    h->in_block = true;
    return true;
}

/* The colours behind an opening brace, to the closing one. */
static bool take_colours(struct cursor *c, uint32_t k, uint8_t *colours)
{
    uint32_t bits = 0;

    if (take_byte(c, '}')) {
        *colours = 0;
        return true;
    }
    do {
        uint32_t colour;
        if (!take_number(c, &colour) || colour >= k)
            return false;
        bits |= 1U << (colour & 7);
    } while (take_byte(c, ' '));
    *colours = (uint8_t)bits;
    return take_byte(c, '}');
}

/* An edge behind "[t] ". */
static bool take_edge(struct cursor *c, struct hoa *h)
{
    struct edges *e = &h->edges;
    uint32_t target;
    uint8_t colours = 0;

    if (!h->in_block || !take_number(c, &target) || target >= h->n)
        return false;
    if (TAKE(c, " {") && !take_colours(c, h->k, &colours))
        return false;
    if (!take_byte(c, '\n'))
        return false;
    if (e->count < CHARGEPLAN_ARCS_MOST) {
        e->sources[e->count] = h->source;
        e->targets[e->count] = target;
        e->colours[e->count] = colours;
        h->unkept = *c;
        h->unkept_source = h->source;
    }
    e->count++;
    return true;
}

/* The first line of a HOA text that is wrong, or 0. */
static uint64_t read_hoa(struct cursor c, struct hoa *h)
{
    uint64_t line = take_head(&c, h);

    if (line > 0)
        return line;
    h->body = c.at;
    h->edges.count = 0;
    h->blocks = 0;
    h->in_block = false;
    for (line = 7; !TAKE(&c, "--END--\n"); line++) {
        const uint8_t *begin = c.at;
        bool fits = TAKE(&c, "[t] ") ? take_edge(&c, h) : TAKE(&c, "State: ") && take_state(&c, h, begin);
        if (!fits)
            return line;
    }
    return c.at == c.end ? 0 : line + 1;
}

/* Passes over the comments, byte by byte as the library does; line is the number of the first line behind them. */
static bool take_comments(struct cursor *c, uint64_t *line)
{
    for (*line = 1; c->at < c->end && *c->at == 'c'; ++*line) {
        while (c->at < c->end && *c->at != '\n')
            c->at++;
        if (!take_byte(c, '\n'))
            return false;
    }
    return true;
}

static bool take_arc(struct cursor *c, uint32_t n, uint32_t *source, uint32_t *target, int32_t *weight)
{
    if (!TAKE(c, "a ") || !take_number(c, source) || !take_byte(c, ' ') || !take_number(c, target) || !take_byte(c, ' ')
        || !take_weight(c, weight) || !take_byte(c, '\n'))
        return false;
    return *source >= 1 && *source <= n && *target >= 1 && *target <= n;
}

/* The first line of a DIMACS text that is wrong, or 0. */
static uint64_t read_dimacs(struct cursor c, struct dimacs *d)
{
    uint64_t line;

    if (!take_comments(&c, &line) || !TAKE(&c, "p sp ") || !take_number(&c, &d->n) || !take_byte(&c, ' ') || !take_number(&c, &d->m)
        || !take_byte(&c, '\n'))
        return line;
    for (uint32_t i = 0; i < d->m; i++) {
        uint32_t source, target;
        int32_t weight;
        line++;
        if (!take_arc(&c, d->n, &source, &target, &weight))
            return line;
        if (i < CHARGEPLAN_ARCS_MOST) {
            d->sources[i] = source - 1;
            d->targets[i] = target - 1;
            d->weights[i] = weight;
            d->unkept = c;
        }
    }
    return c.at == c.end ? 0 : line + 1;
}

/* The ends of the arcs that are not kept, from both texts, of which every line is right. */
static bool same_unkept(const struct hoa *h, const struct dimacs *d)
{
    struct cursor edges = h->unkept, arcs = d->unkept;
    uint32_t source = h->unkept_source;

    while (!TAKE(&edges, "--END--\n")) {
        uint32_t target, u, v;
        int32_t weight;
        if (TAKE(&edges, "State: ")) {
            take_number(&edges, &source);
        } else {
            TAKE(&edges, "[t] ");
            take_number(&edges, &target);
            take_arc(&arcs, d->n, &u, &v, &weight);
            if (u - 1 != source || v - 1 != target)
                return false;
        }
        while (*edges.at++ != '\n')
            ;
    }
    return true;
}

/* Whether 21 does not apply. */
static bool agree(const struct hoa *h, const struct dimacs *d)
{
    if (h->n != d->n || h->edges.count != d->m)
        return false;
    for (uint32_t i = 0; i < d->m && i < CHARGEPLAN_ARCS_MOST; i++)
        if (h->edges.sources[i] != d->sources[i] || h->edges.targets[i] != d->targets[i])
            return false;
    return d->m <= CHARGEPLAN_ARCS_MOST || same_unkept(h, d);
}

/* The first of 1 to 5 that applies, with its detail. */
static uint8_t check_read(const struct hoa *h, const struct dimacs *d, size_t room, uint64_t *detail)
{
    *detail = 0;
    if (h->n == 0 || h->n > CHARGEPLAN_MODES_MOST)
        return CHARGEPLAN_MODE_COUNT;
    if (h->start >= h->n)
        return CHARGEPLAN_START_MODE;
    if (d->m > CHARGEPLAN_ARCS_MOST || d->m > room)
        return CHARGEPLAN_ARC_LISTS;
    if (h->k > CHARGEPLAN_COLOURS_MOST)
        return CHARGEPLAN_COLOUR_COUNT;
    for (uint32_t i = 0; i < d->m; i++)
        if (d->weights[i] < -WEIGHT_MOST || d->weights[i] > WEIGHT_MOST) {
            *detail = i;
            return CHARGEPLAN_UNFIT_ARC;
        }
    return CHARGEPLAN_YES;
}

static struct chargeplan_reading refused_reading(uint8_t number, uint64_t detail)
{
    struct chargeplan_reading reading = {number, detail, 0, 0, 0, 0};
    return reading;
}

static size_t smaller(size_t a, size_t b)
{
    return a < b ? a : b;
}

struct chargeplan_reading PASTE(REFERENCE, _read)(const uint8_t *hoa, size_t hoa_len, const uint8_t *dimacs, size_t dimacs_len,
                                                  uint8_t *sources, size_t sources_len, uint8_t *targets, size_t targets_len,
                                                  uint16_t *draws, size_t draws_len, uint16_t *gains, size_t gains_len,
                                                  uint8_t *colours, size_t colours_len, uint8_t *actions, size_t actions_len)
{
    struct cursor hoa_text = {hoa, hoa + hoa_len}, dimacs_text = {dimacs, dimacs + dimacs_len};
    size_t room = smaller(smaller(sources_len, targets_len), smaller(smaller(draws_len, gains_len), smaller(colours_len, actions_len)));
    struct hoa h;
    struct dimacs d;
    uint64_t detail = read_hoa(hoa_text, &h);

    if (detail > 0)
        return refused_reading(CHARGEPLAN_HOA_LINE, detail);
    detail = read_dimacs(dimacs_text, &d);
    if (detail > 0)
        return refused_reading(CHARGEPLAN_DIMACS_LINE, detail);
    if (!agree(&h, &d))
        return refused_reading(CHARGEPLAN_TEXTS_DISAGREE, 0);
    uint8_t number = check_read(&h, &d, room, &detail);
    if (number != CHARGEPLAN_YES)
        return refused_reading(number, detail);
    for (uint32_t i = 0; i < d.m; i++) {
        sources[i] = (uint8_t)h.edges.sources[i];
        targets[i] = (uint8_t)h.edges.targets[i];
        draws[i] = (uint16_t)(d.weights[i] < 0 ? -d.weights[i] : 0);
        gains[i] = (uint16_t)(d.weights[i] < 0 ? 0 : d.weights[i]);
        colours[i] = h.edges.colours[i];
        actions[i] = 0;
    }
    struct chargeplan_reading reading = {CHARGEPLAN_YES, 0, h.n, h.start, h.k, d.m};
    return reading;
}
