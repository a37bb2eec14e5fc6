/* The least credit and the least bound, called by the C tests. */
#ifndef LEASTS_H
#define LEASTS_H

#include "calls.h"
#include "plain_least.h"

/* An answer has this number, detail and value, and every other bit is 0. */
void check_least(const char *what, uint64_t answer, uint32_t number, uint32_t detail, uint32_t value);

/* How many words a space may be longer than the longest that is needed. */
enum { LEAST_LONGER_MOST = 8192 };

/*
 * One of the two calls, with what it is given, and with junk, of which there are different kinds, in a working space of so many words. By
 * its answer the space is as it was, or 0 in every word; words beside the space, where there are some, and the lists are as they were.
 */
uint64_t least(const char *what, enum least of, const struct model *m, uint32_t given, size_t words, unsigned junk);

/* The call with spaces exactly as long as they must be, and longer, with different junk: the answer is the same. */
uint64_t least_exactly(const char *what, enum least of, const struct model *m, uint32_t given);

/*
 * The call tells this value: with it search finds a plan, and with one less, where that may be tried, search and the decision know that
 * there is none.
 */
void least_is(const char *what, enum least of, const struct model *m, uint32_t given, uint32_t value);

/* What search answers with one of the numbers that may be tried. */
uint32_t least_searched(const char *what, enum least of, const struct model *m, uint32_t given, uint32_t tried);

/* The call answers 10, and so does search with the last number that may be tried. */
void least_is_none(const char *what, enum least of, const struct model *m, uint32_t given);

/*
 * The call against the plain refusals and, where none applies, against the plain search with each number that may be tried: there is no plan
 * with the numbers before the value, nor with any where it answers 10, and there is one with the value and each number behind it.
 */
uint64_t least_tried(const char *what, enum least of, const struct model *m, uint32_t given, size_t words, unsigned junk);

/* The call is refused by this number, with this detail and value 0, with so many words and any switches and barred colours. */
void least_refused(const char *what, enum least of, const struct model *m, uint32_t given, size_t words, uint32_t number, uint32_t detail);

/* Both calls are refused by one of 1 to 5, whatever they are given, and without a space. */
void leasts_refused(const char *what, const struct model *m, uint32_t given, uint32_t number, uint32_t detail);

#endif
