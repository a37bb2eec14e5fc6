#include "ward.h"

#include "answers.h"
#include "lines.h"
#include "plan.h"

#include <ctype.h>
#include <stdio.h>
#include <stdlib.h>
#include <string.h>

/* Makes room for one wearer more; the answer is 0 where there is no memory. */
static int make_room(struct ward *w)
{
    size_t room = 2 * w->room + 16;
    struct chargeplan_wearer *wearers;
    char(*names)[NAME + 1];

    if (w->count < w->room)
        return 1;
    wearers = realloc(w->wearers, room * sizeof *wearers);
    if (wearers == NULL)
        return 0;
    w->wearers = wearers;
    names = realloc(w->names, room * sizeof *names);
    if (names == NULL)
        return 0;
    w->names = names;
    w->room = room;
    return 1;
}

/* The next word of a wearer's line as the name. A control character is refused: it would not show, or change what is shown. */
static int read_name(const struct text *t, char **line, char name[NAME + 1])
{
    char *word = next_word(line), *c;

    if (word == NULL)
        return wrong(t, "the wearer has no name");
    for (c = word; *c != '\0'; c++)
        if (iscntrl((unsigned char)*c))
            return wrong(t, "the name \"%s\" has a control character", shown(word));
    if (c - word > NAME)
        return wrong(t, "the name \"%s\" is longer than %d characters", shown(word), NAME);
    strcpy(name, word);
    return 1;
}

/* The next word of a wearer's line as a number; what is its name. Whether it is right is left to the planner. */
static int read_part(const struct text *t, const char *what, char **line, uint32_t *value)
{
    char *word = next_word(line);

    return word == NULL ? wrong(t, "the wearer has no %s", what) : read_value(t, what, word, UINT32_MAX, value);
}

/* What a line of a ward says. */
static int read_wearer(const struct text *t, void *to, char *word, char *line)
{
    struct ward *w = to;
    struct chargeplan_wearer wearer = {0, 0, 0, 0};
    char name[NAME + 1];

    if (strcmp(word, "wearer") != 0)
        return wrong(t, "unknown word \"%s\"", shown(word));
    if (!read_name(t, &line, name) || !read_part(t, "start", &line, &wearer.start) || !read_part(t, "credit", &line, &wearer.c)
        || !read_part(t, "bound", &line, &wearer.b) || !read_line_end(t, line))
        return 0;
    if (!make_room(w))
        return wrong(t, "no memory for another wearer");
    w->wearers[w->count] = wearer;
    strcpy(w->names[w->count], name);
    w->count++;
    return 1;
}

int read_ward(const char *name, struct ward *w)
{
    memset(w, 0, sizeof *w);
    return read_lines(name, read_wearer, w);
}

void free_ward(struct ward *w)
{
    free(w->wearers);
    free(w->names);
}

/* A wearer's place, counted from 0, and name. */
static void print_name(const struct ward *w, size_t i)
{
    printf("wearer %lu, %s", (unsigned long)i, w->names[i]);
}

/* Whether a wearer can have the plan, and what stands against it. */
static void print_wearer(const struct ward *w, size_t i)
{
    const struct chargeplan_wearer *wearer = &w->wearers[i];
    const char *sentence = sentence_of(wearer->verdict);

    print_name(w, i);
    printf(", start %u, credit %u, bound %u: ", (unsigned)wearer->start, (unsigned)wearer->c, (unsigned)wearer->b);
    if (wearer->verdict == CHARGEPLAN_YES)
        printf("can have it\n");
    else
        printf("cannot have it, %u: %s\n", (unsigned)wearer->verdict, sentence == NULL ? "unknown" : sentence);
}

/* Whether the number of a ward is the model's, so that no verdict is written. */
static int is_of_model(uint32_t number)
{
    return number == CHARGEPLAN_MODE_COUNT || number == CHARGEPLAN_ARC_LISTS || number == CHARGEPLAN_COLOUR_COUNT
        || number == CHARGEPLAN_UNFIT_ARC;
}

/* Has the plan found judged for all wearers. */
static int judge_ward(const struct task *task, const struct space *s, struct ward *w)
{
    struct chargeplan_warded answer = chargeplan_model_ward(w->wearers, w->count, &task->model, task->barred, s->p, s->q, s->plan);
    size_t i;

    /* It is not refused here, since search has planned it. A desk that is handed its plan has to look. */
    if (is_of_model(answer.number)) {
        print_refusal("the ward refuses the model", answer.number, answer.detail);
        return REFUSED;
    }
    for (i = 0; i < w->count; i++)
        print_wearer(w, i);
    if (answer.number == CHARGEPLAN_YES) {
        printf("the ward: yes, %s\n", w->count == 0 ? "it has no wearers" : "all can have it");
        return PLAN;
    }
    printf("the ward: %u, detail %lu: ", (unsigned)answer.number, (unsigned long)answer.detail);
    print_name(w, (size_t)answer.detail);
    printf(", is the first who cannot have it\n");
    return REFUSED;
}

int answer_ward(const struct mission *m, struct ward *w)
{
    struct task task = task_of(m);
    struct space space;
    int status = FAILED;

    print_ignored(m, "model");
    print_barred(&task);
    if (lend_space(&task, &space)) {
        status = search_plan(&task, &space);
        if (status == PLAN)
            status = judge_ward(&task, &space, w);
    }
    free_space(&space);
    return status;
}
