/* The least credit and the least bound, as plainly as Ask 8 of document 02 has them and with no code of the library. */
#ifndef PLAIN_LEAST_H
#define PLAIN_LEAST_H

#include "plain.h"

/* The two calls: one is given the bound, and tells a credit, the other is given the credit, and tells a bound. */
enum least { LEAST_CREDIT, LEAST_BOUND };

/* The words of working space of a fit model; of the least credit for a bound that is not refused. */
size_t plain_least_words(enum least of, const struct model *m, uint32_t given);

/* 1 to 8, with a working space of so many words; number 0 where none applies. */
struct verdict plain_least_refusal(enum least of, const struct model *m, uint32_t given, size_t words);

/* The numbers that may be tried, from the first to the last, where none of 1 to 8 applies. */
uint32_t plain_first_tried(enum least of, uint32_t given);
uint32_t plain_last_tried(enum least of, const struct model *m, uint32_t given);

/* Whether there is a plan with one of them. */
int plain_serves(enum least of, const struct model *m, uint32_t given, uint32_t tried);

#endif
