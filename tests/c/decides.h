/* The decision, called by the C tests. */
#ifndef DECIDES_H
#define DECIDES_H

#include "calls.h"
#include "plain_decide.h"

/*
 * The decision with junk in a working space of so many words, which by its answer is as it was, or 0 in every word; words beside the space,
 * where there are some, and the lists are as they were.
 */
uint64_t decide(const char *what, const struct model *m, uint32_t c, uint32_t b, size_t words, unsigned junk);

/* The decision with spaces exactly as long as they must be, and longer, with different junk: the answer is the same. */
uint64_t decide_exactly(const char *what, const struct model *m, uint32_t c, uint32_t b);

/* It says that there is a plan, or that there is none. */
void decided(const char *what, const struct model *m, uint32_t c, uint32_t b, int has_plan);

/* It is refused by one of 1 to 6, with any space and any switches and barred colours. */
void decide_refused(const char *what, const struct model *m, uint32_t c, uint32_t b, uint32_t number, uint32_t detail);

/* A model with start mode 0 that is being made, and an arc more of it. */
struct sketch {
    uint32_t n, k;
    size_t arcs;
    struct lists lists;
};
struct sketch sketch(uint32_t n, uint32_t k);
void add_arc(struct sketch *s, uint32_t source, uint32_t target, uint32_t draw, uint32_t gain, uint32_t colours);
struct model of_sketch(const struct sketch *s);

/*
 * The decision knows the greatest charge of a mode of a model in which nothing has colour 0: a way that draws all of it, on modes of its
 * own, to a loop that has the colour makes a plan, and one that draws one more does not.
 */
void has_peak(const char *what, const struct sketch *s, uint32_t barred, uint32_t mode, uint32_t c, uint32_t b, uint32_t peak);

#endif
