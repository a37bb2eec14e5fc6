#include "lines.h"

#include <ctype.h>
#include <errno.h>
#include <inttypes.h>
#include <stdarg.h>
#include <stdlib.h>
#include <string.h>

/* The most characters of a word that is printed as wrong. */
enum { SHOWN = 40 };

int wrong(const struct text *t, const char *reason, ...)
{
    va_list parts;

    fprintf(stderr, "%s: ", t->name);
    if (t->line > 0)
        fprintf(stderr, "line %u: ", t->line);
    va_start(parts, reason);
    vfprintf(stderr, reason, parts);
    va_end(parts);
    fprintf(stderr, "\n");
    return 0;
}

int wrong_file(const char *name, const char *what)
{
    fprintf(stderr, "%s: cannot be %s: %s\n", name, what, strerror(errno));
    return 0;
}

const char *shown(char *word)
{
    char *c;

    for (c = word; *c != '\0'; c++)
        if (!isprint((unsigned char)*c))
            *c = '?';
    if (c - word > SHOWN)
        strcpy(word + SHOWN - 3, "...");
    return word;
}

char *next_word(char **line)
{
    static const char blanks[] = " \t";
    char *word = *line + strspn(*line, blanks);
    char *end = word + strcspn(word, blanks);

    *line = *end == '\0' ? end : end + 1;
    *end = '\0';
    return word == end ? NULL : word;
}

int read_digits(char **text, unsigned long long *value)
{
    if (**text < '0' || **text > '9')
        return 0;
    /* Of more digits than it can hold this makes the greatest number, which is above every limit here. */
    *value = strtoull(*text, text, 10);
    return 1;
}

int read_value(const struct text *t, const char *what, char *word, uint32_t most, uint32_t *value)
{
    unsigned long long number;
    char *end = word;

    if (!read_digits(&end, &number) || *end != '\0')
        return wrong(t, "%s \"%s\" is not a number of digits alone", what, shown(word));
    if (number > most)
        return wrong(t, "%s %s is above %" PRIu32, what, shown(word), most);
    *value = (uint32_t)number;
    return 1;
}

int read_line_end(const struct text *t, char *line)
{
    char *word = next_word(&line);

    return word == NULL || wrong(t, "\"%s\" where the line should end", shown(word));
}

/*
 * The characters of a line, the first of which has been read; there is room for the CR of its end and a NUL. The answer is 0 where they
 * are no line, with the reason printed: a NUL would hide what follows it, and so would a CR in a comment, since it may show as the end
 * of a line and is none.
 */
static int fill_line(const struct text *t, int first, char line[LINE + 2])
{
    size_t length = 0;
    int c;

    for (c = first; c != '\n' && c != EOF; c = fgetc(t->file)) {
        if (c == '\0')
            return wrong(t, "a NUL byte");
        if (length > 0 && line[length - 1] == '\r')
            return wrong(t, "a CR that does not end the line");
        if (length == LINE && c != '\r')
            return wrong(t, "longer than %d characters", LINE);
        line[length++] = (char)c;
    }
    if (length > 0 && line[length - 1] == '\r')
        length--;
    line[length] = '\0';
    return 1;
}

/* What a line says, without its comment. */
static int read_line(const struct text *t, line_reader *reader, void *to, char *line)
{
    char *word;

    line[strcspn(line, "#")] = '\0';
    word = next_word(&line);
    return word == NULL || reader(t, to, word, line);
}

/* The lines of a text; the answer is 0 where one cannot be read, with the reason printed. */
static int read_text(struct text *t, line_reader *reader, void *to)
{
    char line[LINE + 2];
    int first;

    while ((first = fgetc(t->file)) != EOF) {
        t->line++;
        if (!fill_line(t, first, line))
            return 0;
        /* A line that a failed read has cut is not looked at. */
        if (ferror(t->file))
            break;
        if (!read_line(t, reader, to, line))
            return 0;
    }
    return !ferror(t->file) || wrong_file(t->name, "read");
}

int read_lines(const char *name, line_reader *reader, void *to)
{
    struct text t = {name, fopen(name, "r"), 0};
    int fine;

    if (t.file == NULL)
        return wrong_file(name, "opened");
    fine = read_text(&t, reader, to);
    fclose(t.file);
    return fine;
}
