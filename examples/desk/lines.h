/* Texts of lines, as missions, habits and wards are written: their lines and words, and what is said of a line that cannot be read. */
#ifndef LINES_H
#define LINES_H

#include <stdint.h>
#include <stdio.h>

/* The most characters of a line, without its end. */
enum { LINE = 250 };

/* A text that is being read, and the number of the line that was read last, 0 where there are no lines. */
struct text {
    const char *name;
    FILE *file;
    unsigned line;
};

/* Says what is wrong with the line that was read last. The answer is 0: it cannot be read. */
int wrong(const struct text *t, const char *reason, ...);

/* Says why the file cannot be opened or read. The answer is 0. */
int wrong_file(const char *name, const char *what);

/* Makes a word fit to be printed: what is no printable character becomes '?', and what is too long is cut. */
const char *shown(char *word);

/* The next word of a line, and the line moved behind it; NULL where there is none. */
char *next_word(char **line);

/* The digits that a text begins with, and the text moved behind them; the answer is 0 where there are none. */
int read_digits(char **text, unsigned long long *value);

/* A word as a number up to most; what is its name. The answer is 0 where it is none, with the reason printed. */
int read_value(const struct text *t, const char *what, char *word, uint32_t most, uint32_t *value);

/* The line ends here; the answer is 0 where a word follows, with the reason printed. */
int read_line_end(const struct text *t, char *line);

/* Puts what a line says, its first word and then the rest, into `to`; the answer is 0 where it cannot be read, with the reason printed. */
typedef int line_reader(const struct text *t, void *to, char *word, char *line);

/*
 * Has every line of a file read that has a word before its comment. The answer is 0 where the file or a line cannot be read, with the
 * reason printed.
 */
int read_lines(const char *name, line_reader *reader, void *to);

#endif
