#include "mission.h"

#include "lines.h"

#include <string.h>

static const char *const number_words[NUMBERS] = {"modes", "start", "colours", "bound", "credit"};

static const char barred_word[] = "barred";

/* The number after its word, to the end of the line; once. */
static int read_number(const struct text *t, struct mission *m, int which, char *line)
{
    const char *name = number_words[which];
    char *word = next_word(&line);

    if (which >= m->wanted)
        return wrong(t, "a habit has no \"%s\": the mission has it", name);
    if (m->lines[which] > 0)
        return wrong(t, "\"%s\" a second time, after line %u", name, m->lines[which]);
    if (word == NULL)
        return wrong(t, "no number after \"%s\"", name);
    if (!read_value(t, name, word, UINT32_MAX, &m->numbers[which]) || !read_line_end(t, line))
        return 0;
    m->lines[which] = t->line;
    return 1;
}

/* The next word of an arc's line as an end of the arc, "source" or "target". */
static int read_end(const struct text *t, const char *what, char **line, uint8_t *end)
{
    char *word = next_word(line);
    uint32_t value = 0;

    if (word == NULL)
        return wrong(t, "the arc has no %s", what);
    if (!read_value(t, what, word, UINT8_MAX, &value))
        return 0;
    *end = (uint8_t)value;
    return 1;
}

/* The draw and the gain of a move: "-DRAW", "GAIN", "+GAIN" or "-DRAW+GAIN"; the answer is 0 where the word is none. */
static int split_move(char *word, unsigned long long *draw, unsigned long long *gain)
{
    *draw = 0;
    *gain = 0;
    if (*word == '-') {
        word++;
        if (!read_digits(&word, draw))
            return 0;
        if (*word == '\0')
            return 1;
    }
    if (*word == '+')
        word++;
    return read_digits(&word, gain) && *word == '\0';
}

/* The next word of an arc's line as its move. */
static int read_move(const struct text *t, char **line, uint16_t *draw, uint16_t *gain)
{
    char *word = next_word(line);
    unsigned long long drawn, gained;

    if (word == NULL)
        return wrong(t, "the arc has no move");
    if (!split_move(word, &drawn, &gained))
        return wrong(t, "\"%s\" is no move: -DRAW, GAIN, +GAIN or -DRAW+GAIN", shown(word));
    if (drawn > UINT16_MAX || gained > UINT16_MAX)
        return wrong(t, "the %s of %s is above %u", drawn > UINT16_MAX ? "draw" : "gain", shown(word), (unsigned)UINT16_MAX);
    *draw = (uint16_t)drawn;
    *gain = (uint16_t)gained;
    return 1;
}

/* The action behind its '@', to the end of the line. */
static int read_action(const struct text *t, char *word, char *line, uint8_t *action)
{
    uint32_t value = 0;

    if (!read_value(t, "action", word, UINT8_MAX, &value) || !read_line_end(t, line))
        return 0;
    *action = (uint8_t)value;
    return 1;
}

/* A word as one colour more, by its bit; what is its name. */
static int add_colour(const struct text *t, const char *what, char *word, uint8_t *colours)
{
    uint32_t colour = 0;

    if (!read_value(t, what, word, COLOUR_BIT_MOST, &colour))
        return 0;
    *colours = (uint8_t)(*colours | 1u << colour);
    return 1;
}

/* The colours that an arc meets, a bit each, and its action, if there is one, to the end of its line. */
static int read_colours(const struct text *t, char *line, uint8_t *met, uint8_t *action)
{
    char *word;

    while ((word = next_word(&line)) != NULL && *word != '@')
        if (!add_colour(t, "colour", word, met))
            return 0;
    return word == NULL || read_action(t, word + 1, line, action);
}

/* The barred colours, a bit each, one or more, to the end of the line; once. */
static int read_barred(const struct text *t, struct mission *m, char *line)
{
    char *word = next_word(&line);

    if (m->barred_line > 0)
        return wrong(t, "\"%s\" a second time, after line %u", barred_word, m->barred_line);
    if (word == NULL)
        return wrong(t, "no colour after \"%s\"", barred_word);
    for (; word != NULL; word = next_word(&line))
        if (!add_colour(t, "barred colour", word, &m->barred))
            return 0;
    m->barred_line = t->line;
    return 1;
}

/* One arc, to the end of the line. A number that its list can hold is left to the planner. */
static int read_arc(const struct text *t, struct mission *m, char *line)
{
    uint8_t source = 0, target = 0, met = 0, action = 0;
    uint16_t draw = 0, gain = 0;

    if (!read_end(t, "source", &line, &source) || !read_end(t, "target", &line, &target) || !read_move(t, &line, &draw, &gain)
        || !read_colours(t, line, &met, &action))
        return 0;
    if (m->arcs == ARCS_KEPT)
        return 1;
    m->sources[m->arcs] = source;
    m->targets[m->arcs] = target;
    m->draws[m->arcs] = draw;
    m->gains[m->arcs] = gain;
    m->met[m->arcs] = met;
    m->actions[m->arcs] = action;
    m->arcs++;
    return 1;
}

/* What a line of a mission or of a habit says. */
static int read_mission_line(const struct text *t, void *to, char *word, char *line)
{
    int which;

    if (strcmp(word, "arc") == 0)
        return read_arc(t, to, line);
    if (strcmp(word, barred_word) == 0)
        return read_barred(t, to, line);
    for (which = 0; which < NUMBERS; which++)
        if (strcmp(word, number_words[which]) == 0)
            return read_number(t, to, which, line);
    return wrong(t, "unknown word \"%s\"", shown(word));
}

int read_mission(const char *name, int numbers, struct mission *m)
{
    int which;

    memset(m, 0, sizeof *m);
    m->wanted = numbers;
    if (!read_lines(name, read_mission_line, m))
        return 0;
    for (which = 0; which < numbers; which++)
        if (m->lines[which] == 0) {
            fprintf(stderr, "%s: has no line \"%s\"\n", name, number_words[which]);
            return 0;
        }
    return 1;
}

int read_levels(char **words, int count, struct mission *m)
{
    struct text arguments = {"desk", NULL, 0};
    int i;

    if (!read_value(&arguments, number_words[BOUND], words[0], UINT32_MAX, &m->numbers[BOUND])
        || !read_value(&arguments, number_words[CREDIT], words[1], UINT32_MAX, &m->numbers[CREDIT]))
        return 0;
    if (count > 2 && strcmp(words[2], barred_word) != 0)
        return wrong(&arguments, "\"%s\" where \"%s\" or nothing should stand", shown(words[2]), barred_word);
    if (count == 3)
        return wrong(&arguments, "no colour after \"%s\"", barred_word);
    for (i = 3; i < count; i++)
        if (!add_colour(&arguments, "barred colour", words[i], &m->barred))
            return 0;
    return 1;
}

struct chargeplan_model model_of(const struct mission *m)
{
    struct chargeplan_model model = {m->numbers[MODES], m->numbers[START], m->numbers[COLOURS], m->sources, m->targets, m->draws,
        m->gains, m->met, m->actions, m->arcs};

    return model;
}
