/* Reading two texts into lists with junk, compared with the plain reading. */
#include "texts.h"

#include <stdio.h>
#include <stdlib.h>

/* The bytes of a text that is not long. */
static void print_text(const char *name, struct text t)
{
    size_t i;

    printf("  %s: ", name);
    for (i = 0; i < t.length && i < 1000; i++)
        if (t.bytes[i] >= ' ' && t.bytes[i] <= '~' && t.bytes[i] != '\\')
            printf("%c", t.bytes[i]);
        else
            printf(t.bytes[i] == '\n' ? "\\n" : "\\%03o", (unsigned)t.bytes[i]);
    printf("%s\n", i < t.length ? ".." : "");
}

static void check_reading(const char *what, struct text hoa, struct text dimacs, struct reading r, struct reading expected)
{
    if (!check_filled(what, r, expected) && failures <= PRINTED_MOST) {
        print_text("HOA", hoa);
        print_text("DIMACS", dimacs);
    }
}

/* The pair in blocks of its own is read into lists with gaps; of these the places of arcs that the plain reading gives may change. */
static struct reading read_once(const char *what, struct text hoa, struct text dimacs, const struct rooms *r, size_t gap, int junk,
    const struct arc *arcs, size_t count)
{
    struct lent l = lend_rooms(r, gap, junk), expected = lend_rooms(r, gap, junk);
    struct model whole = whole_lists(expected, r, gap);
    uint8_t *h = copied(hoa.bytes, hoa.length), *d = copied(dimacs.bytes, dimacs.length);
    struct chargeplan_reading got = chargeplan_read(h, hoa.length, d, dimacs.length, l.sources + gap, r->of[0], l.targets + gap, r->of[1],
        l.draws + gap, r->of[2], l.gains + gap, r->of[3], l.colours + gap, r->of[4], l.actions + gap, r->of[5]);
    struct reading reading = {got.number, got.detail, got.n, got.start, got.k, got.m};

    write_arcs(expected, gap, arcs, count);
    check(same(h, hoa.bytes, hoa.length) && same(d, dimacs.bytes, dimacs.length), what);
    take_back(&whole, l, what);
    free_lists(expected);
    free(h);
    free(d);
    return reading;
}

struct reading read_texts(const char *what, struct text hoa, struct text dimacs, struct rooms rooms, struct lists *to)
{
    struct arc arcs[FILLED_ARCS_MOST];
    struct reading plain = plain_read(hoa, dimacs, shortest(&rooms), arcs), first, again;
    size_t a;

    first = read_once(what, hoa, dimacs, &rooms, 0, 0xa7, arcs, plain.m);
    again = read_once(what, hoa, dimacs, &rooms, 3, 0x58, arcs, plain.m);
    check_reading(what, hoa, dimacs, first, plain);
    check_reading(what, hoa, dimacs, again, first);
    for (a = 0; to != NULL && a < plain.m; a++)
        put(to, a, arcs[a]);
    return first;
}

void read_as(const char *what, struct text hoa, struct text dimacs, uint32_t number, uint64_t detail)
{
    struct reading r = read_texts(what, hoa, dimacs, equal_rooms(CHARGEPLAN_ARCS_MOST), NULL), expected = {number, detail, 0, 0, 0, 0};

    if (number == CHARGEPLAN_YES) {
        expected = r;
        expected.number = number;
        expected.detail = detail;
    }
    check_reading(what, hoa, dimacs, r, expected);
}
