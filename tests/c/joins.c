#include "joins.h"

#include <stdlib.h>

/* Knee and habit in blocks of their own are joined into lists with gaps, of which the places of the plain join's arcs may change. */
static struct reading join_once(const char *what, const struct model *knee, const struct model *habit, const struct rooms *r, size_t gap,
    int junk, const struct arc *arcs, size_t count)
{
    struct lent l = lend_rooms(r, gap, junk), expected = lend_rooms(r, gap, junk), k = lend(knee), h = lend(habit);
    struct model whole = whole_lists(expected, r, gap);
    struct chargeplan_reading got = chargeplan_join(knee->n, knee->start, knee->k, k.sources, knee->sources_length, k.targets,
        knee->targets_length, k.draws, knee->draws_length, k.gains, knee->gains_length, k.colours, knee->colours_length, k.actions,
        knee->actions_length, habit->n, habit->start, habit->k, h.sources, habit->sources_length, h.targets, habit->targets_length,
        h.draws, habit->draws_length, h.gains, habit->gains_length, h.colours, habit->colours_length, h.actions, habit->actions_length,
        l.sources + gap, r->of[0], l.targets + gap, r->of[1], l.draws + gap, r->of[2], l.gains + gap, r->of[3], l.colours + gap, r->of[4],
        l.actions + gap, r->of[5]);
    struct reading reading = {got.number, got.detail, got.n, got.start, got.k, got.m};

    write_arcs(expected, gap, arcs, count);
    take_back(&whole, l, what);
    take_back(knee, k, what);
    take_back(habit, h, what);
    free_lists(expected);
    return reading;
}

struct reading join_models(const char *what, const struct model *knee, const struct model *habit, struct rooms rooms, struct lists *to)
{
    struct arc arcs[FILLED_ARCS_MOST];
    struct reading plain = plain_join(knee, habit, shortest(&rooms), arcs), first, again;
    size_t a;

    first = join_once(what, knee, habit, &rooms, 0, 0xa7, arcs, plain.m);
    again = join_once(what, knee, habit, &rooms, 3, 0x58, arcs, plain.m);
    check_filled(what, first, plain);
    check_filled(what, again, first);
    for (a = 0; to != NULL && a < plain.m; a++)
        put(to, a, arcs[a]);
    return first;
}

void joined_as(const char *what, const struct model *knee, const struct model *habit, uint32_t number, uint64_t detail)
{
    struct reading r = join_models(what, knee, habit, equal_rooms(CHARGEPLAN_ARCS_MOST), NULL), expected = {number, detail, 0, 0, 0, 0};

    if (number == CHARGEPLAN_YES) {
        expected = r;
        expected.number = number;
        expected.detail = detail;
    }
    check_filled(what, r, expected);
}

struct model joined_model(struct reading r, const struct lists *lists)
{
    struct model m = listed(r.n, r.k, lists, r.m);

    m.start = r.start;
    return m;
}

struct chargeplan_model as_one(const struct model *m)
{
    struct chargeplan_model one = {
        m->n, m->start, m->k, m->sources, m->targets, m->draws, m->gains, m->colours, m->actions, m->sources_length};
    return one;
}

size_t equal_actions(const struct model *knee, const struct model *habit)
{
    size_t count = 0, i, j;

    for (i = 0; i < knee->actions_length; i++)
        for (j = 0; j < habit->actions_length; j++)
            count += knee->actions[i] == habit->actions[j];
    return count;
}

struct model with_action(struct lists *to, size_t arcs, uint32_t action)
{
    struct arc arc = {0, 0, 0, 0, 0, action};
    size_t a;

    for (a = 0; a < arcs; a++)
        put(to, a, arc);
    return listed(1, 0, to, arcs);
}

void random_actions(struct lists *lists, size_t arcs, uint32_t count)
{
    size_t a;

    for (a = 0; a < arcs; a++)
        lists->actions[a] = (uint8_t)below(count);
}
