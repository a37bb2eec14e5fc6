#include "rooms.h"

#include <inttypes.h>
#include <stdio.h>
#include <stdlib.h>
#include <string.h>

struct rooms equal_rooms(size_t room)
{
    struct rooms r = {{room, room, room, room, room, room}};
    return r;
}

size_t shortest(const struct rooms *r)
{
    size_t least = r->of[0], i;

    for (i = 1; i < MODEL_LISTS; i++)
        if (r->of[i] < least)
            least = r->of[i];
    return least;
}

struct rooms random_rooms(size_t arcs)
{
    struct rooms rooms = equal_rooms(arcs);
    size_t i;

    for (i = 0; i < MODEL_LISTS; i++)
        rooms.of[i] += below(3);
    if (arcs > 0 && below(40) == 0)
        rooms.of[below(MODEL_LISTS)] = below((uint32_t)arcs);
    return rooms;
}

static void *junk_block(size_t bytes, int junk)
{
    void *block = copied(NULL, bytes);

    if (bytes > 0)
        memset(block, junk, bytes);
    return block;
}

struct lent lend_rooms(const struct rooms *r, size_t gap, int junk)
{
    struct lent l;

    l.sources = junk_block(r->of[0] + 2 * gap, junk);
    l.targets = junk_block(r->of[1] + 2 * gap, junk);
    l.draws = junk_block((r->of[2] + 2 * gap) * sizeof *l.draws, junk);
    l.gains = junk_block((r->of[3] + 2 * gap) * sizeof *l.gains, junk);
    l.colours = junk_block(r->of[4] + 2 * gap, junk);
    l.actions = junk_block(r->of[5] + 2 * gap, junk);
    return l;
}

struct model whole_lists(struct lent l, const struct rooms *r, size_t gap)
{
    struct model m = {0, 0, 0, l.sources, r->of[0] + 2 * gap, l.targets, r->of[1] + 2 * gap, l.draws, r->of[2] + 2 * gap, l.gains,
        r->of[3] + 2 * gap, l.colours, r->of[4] + 2 * gap, l.actions, r->of[5] + 2 * gap, NULL, 0, all_on};
    return m;
}

void write_arcs(struct lent l, size_t gap, const struct arc *arcs, size_t count)
{
    size_t a;

    for (a = 0; a < count; a++) {
        l.sources[gap + a] = (uint8_t)arcs[a].source;
        l.targets[gap + a] = (uint8_t)arcs[a].target;
        l.draws[gap + a] = (uint16_t)arcs[a].draw;
        l.gains[gap + a] = (uint16_t)arcs[a].gain;
        l.colours[gap + a] = (uint8_t)arcs[a].colours;
        l.actions[gap + a] = (uint8_t)arcs[a].action;
    }
}

void free_lists(struct lent l)
{
    free(l.sources);
    free(l.targets);
    free(l.draws);
    free(l.gains);
    free(l.colours);
    free(l.actions);
}

static void print_filled(const char *what, struct reading r)
{
    printf("  %s number %u detail %" PRIu64 " n %u start %u k %u m %u\n", what, (unsigned)r.number, r.detail, (unsigned)r.n,
        (unsigned)r.start, (unsigned)r.k, (unsigned)r.m);
}

int check_filled(const char *what, struct reading r, struct reading expected)
{
    int right = r.number == expected.number && r.detail == expected.detail && r.n == expected.n && r.start == expected.start
        && r.k == expected.k && r.m == expected.m;

    check(right, what);
    if (!right && failures <= PRINTED_MOST) {
        print_filled("answer", r);
        print_filled("not   ", expected);
    }
    return right;
}
