/* Texts of models, made by the C tests, and reading them. */
#ifndef TEXTS_H
#define TEXTS_H

#include "rooms.h"

/* A text that is being made; { NULL, 0, 0 } has no bytes. */
struct page {
    uint8_t *bytes;
    size_t length, room;
};

void add_byte(struct page *to, uint8_t byte);
void add_text(struct page *to, struct text t);
void add(struct page *to, const char *words);

/* Adds a number, with zeros in front up to so many digits. */
void add_number(struct page *to, uint32_t number, unsigned digits);

/* Empties the page; its memory is kept, or given back. */
void clear_page(struct page *p);
void free_page(struct page *p);

/* The text of a page, which changes with it, and of a string. */
struct text text_of(const struct page *p);
struct text as_text(const char *string);

/* Makes a text with one of its lines, counted from 1, replaced; the line feed of that line too. */
void replace_line(struct page *to, struct text from, size_t line, const char *by);

/* A model's two texts. */
struct pair {
    struct page hoa, dimacs;
};

void clear_pair(struct pair *p);
void free_pair(struct pair *p);

/* How a model is printed: so many digits of a number at least, and with liberties of the forms at random or none. */
struct style {
    unsigned digits;
    int free;
};

/* Prints the texts of a model, whose arcs of one source stand together, have no draw or no gain, and action 0. */
void print_model(struct pair *to, const struct model *m, struct style style);

/*
 * Reading, compared with the plain reading: the answer, and the lists of these lengths, in which only the places of arcs that were read
 * may change. It is done twice, with other junk in lists elsewhere. The arcs read are copied to `to`, unless that is null.
 */
struct reading read_texts(const char *what, struct text hoa, struct text dimacs, struct rooms rooms, struct lists *to);

/* Reading into lists as long as they need be is refused by this number and detail, or is not where the number is 0. */
void read_as(const char *what, struct text hoa, struct text dimacs, uint32_t number, uint64_t detail);

/* A pair of texts that has every form, with lines that the tests know by their numbers. */
extern const char knee_hoa[], knee_dimacs[];

#endif
