#include "recall.h"

#include "answers.h"
#include "lines.h"
#include "plan.h"

#include <stdio.h>
#include <stdlib.h>
#include <string.h>

/* Makes room for one switching more; the answer is 0 where there is no memory. */
static int make_room(struct recall *r)
{
    size_t room = 2 * r->room + 16;
    struct switching *switchings;

    if (r->count < r->room)
        return 1;
    switchings = realloc(r->switchings, room * sizeof *switchings);
    if (switchings == NULL)
        return 0;
    r->switchings = switchings;
    r->room = room;
    return 1;
}

/* What a line of a recall says: a visit at which one arc or more are switched. Whether the model has them is left to the planner. */
static int read_visit(const struct text *t, void *to, char *word, char *line)
{
    struct recall *r = to;
    struct switching s = {0, strcmp(word, "on") == 0, t->line};
    char *arc = next_word(&line);

    if (!s.on && strcmp(word, "off") != 0)
        return wrong(t, "unknown word \"%s\"", shown(word));
    if (arc == NULL)
        return wrong(t, "no arc after \"%s\"", word);
    for (; arc != NULL; arc = next_word(&line)) {
        if (!read_value(t, "arc", arc, UINT32_MAX, &s.arc))
            return 0;
        if (!make_room(r))
            return wrong(t, "no memory for another switching");
        r->switchings[r->count++] = s;
    }
    return 1;
}

int read_recall(const char *name, struct recall *r)
{
    memset(r, 0, sizeof *r);
    return read_lines(name, read_visit, r);
}

void free_recall(struct recall *r)
{
    free(r->switchings);
}

/* A mission under a recall: its task, whose arcs are on or off as in the reach, and two plans, with every arc on and as things are. */
struct service {
    struct task task;
    struct chargeplan_reach reach;
    struct space first, now;
};

/* Prints some arcs of a plan, one after the other. */
static void print_arcs(const char *title, const uint8_t *arcs, uint32_t count)
{
    uint32_t i;

    printf("  %s: %s", title, count == 0 ? "no arcs" : count == 1 ? "arc" : "arcs");
    for (i = 0; i < count; i++)
        printf(" %u", (unsigned)arcs[i]);
    printf("\n");
}

/* Prints the plan as things are, or that it is the one with every arc on. */
static void print_plan(const struct service *s)
{
    const struct space *now = &s->now, *first = &s->first;

    if (now->p == first->p && now->q == first->q && memcmp(now->plan, first->plan, (size_t)now->p + now->q) == 0) {
        printf("  it is the plan with every arc on\n");
        return;
    }
    print_arcs("prefix", now->plan, now->p);
    print_arcs("cycle", now->plan + now->p, now->q);
}

/* Tells whether the plan that the knee has can stay. Judging does not tell it: it knows every arc. */
static void print_old_plan(const struct service *s)
{
    uint32_t length = s->now.p + s->now.q, i;

    if (length == 0)
        return;
    for (i = 0; i < length; i++)
        if (!chargeplan_is_on(s->reach.on, s->now.plan[i])) {
            printf("the plan before has arc %u, which is off\n", (unsigned)s->now.plan[i]);
            return;
        }
    printf("the plan before has no arc that is off\n");
}

/* Prints with which charge a mode is reached, and with which it was before. */
static void print_mode_change(uint32_t mode, uint16_t charge, uint16_t before)
{
    if (charge == CHARGEPLAN_UNREACHED)
        printf("mode %u is no longer reached, before with charge %u\n", (unsigned)mode, (unsigned)before);
    else if (before == CHARGEPLAN_UNREACHED)
        printf("mode %u is reached with charge %u, before it was not\n", (unsigned)mode, (unsigned)charge);
    else
        printf("mode %u is reached with charge %u, before with %u\n", (unsigned)mode, (unsigned)charge, (unsigned)before);
}

/* Tells which modes are reached with another charge than before. */
static void print_changes(const struct service *s, const struct chargeplan_reach *before)
{
    uint32_t mode, changes = 0;

    for (mode = 0; mode < s->task.model.n; mode++)
        if (s->reach.charges[mode] != before->charges[mode]) {
            print_mode_change(mode, s->reach.charges[mode], before->charges[mode]);
            changes++;
        }
    if (changes == 0)
        printf("every mode is reached as before\n");
}

/* Tells the greatest charge of each mode with every arc on. The answer is 0 where the reach is refused. */
static int start_service(struct service *s)
{
    struct chargeplan_reached reached = chargeplan_model_reach_start(&s->task.model, s->task.c, s->task.b, s->task.on);
    uint32_t mode;

    /* It is not refused here, since search has planned the mission. */
    if (!is_yes("the reach is refused", reached.answer))
        return 0;
    s->reach = reached.reach;
    for (mode = 0; mode < s->task.model.n; mode++)
        if (s->reach.charges[mode] == CHARGEPLAN_UNREACHED)
            printf("mode %u is not reached\n", (unsigned)mode);
        else
            printf("mode %u is reached with charge %u\n", (unsigned)mode, (unsigned)s->reach.charges[mode]);
    return 1;
}

/* Switches the arcs of a visit, and prints them. The answer is 0 where the planner refuses one. */
static int switch_arcs(struct service *s, const struct switching *switchings, size_t count)
{
    size_t i;

    printf("%s:", switchings[0].on ? "on" : "off");
    for (i = 0; i < count; i++)
        printf("%s arc %u", i == 0 ? "" : ",", (unsigned)switchings[i].arc);
    printf("\n");
    for (i = 0; i < count; i++) {
        struct chargeplan_reached reached =
            chargeplan_model_reach_switch(s->reach, &s->task.model, s->task.c, s->task.b, switchings[i].arc, switchings[i].on);
        uint32_t number = chargeplan_number(reached.answer);

        if (number != CHARGEPLAN_YES) {
            printf("switching refuses arc %u: %u, detail %u: %s\n", (unsigned)switchings[i].arc, (unsigned)number,
                (unsigned)chargeplan_detail(reached.answer), sentence_of(number) == NULL ? "unknown" : sentence_of(number));
            return 0;
        }
        s->reach = reached.reach;
    }
    memcpy(s->task.on, s->reach.on, sizeof s->task.on);
    return 1;
}

/* A visit: switches its arcs, tells what that changes, and plans again. The answer is an exit status. */
static int answer_visit(struct service *s, const struct switching *switchings, size_t count)
{
    struct chargeplan_reach before = s->reach;
    int status;

    if (!switch_arcs(s, switchings, count))
        return REFUSED;
    print_old_plan(s);
    print_changes(s, &before);
    status = search_plan(&s->task, &s->now);
    if (status == PLAN)
        print_plan(s);
    return status;
}

/* All visits, one after the other, up to the first that is refused. */
static int answer_visits(struct service *s, const struct recall *r)
{
    int status = PLAN;
    size_t i, end;

    for (i = 0; i < r->count && status != REFUSED; i = end) {
        for (end = i + 1; end < r->count && r->switchings[end].line == r->switchings[i].line;)
            end++;
        status = answer_visit(s, r->switchings + i, end - i);
    }
    return status;
}

/* The plan with every arc on, which the knee has at first, and then the visits. */
static int answer_service(struct service *s, const struct recall *r)
{
    int status = search_plan(&s->task, &s->first);

    /* Where there is none with every arc on, there is none with fewer. */
    if (status != PLAN)
        return status;
    print_arcs("prefix", s->first.plan, s->first.p);
    print_arcs("cycle", s->first.plan + s->first.p, s->first.q);
    if (!start_service(s))
        return REFUSED;
    s->now.p = s->first.p;
    s->now.q = s->first.q;
    memcpy(s->now.plan, s->first.plan, (size_t)s->first.p + s->first.q);
    return answer_visits(s, r);
}

int answer_recall(const struct mission *m, const struct recall *r)
{
    struct service s;
    int status = FAILED, lent;

    s.task = task_of(m);
    print_ignored(m, "model");
    print_barred(&s.task);
    lent = lend_space(&s.task, &s.first);
    lent = lend_space(&s.task, &s.now) && lent;
    if (lent)
        status = answer_service(&s, r);
    free_space(&s.first);
    free_space(&s.now);
    return status;
}
