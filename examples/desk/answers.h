/* The answers of the planner in words, and the exit statuses of the program. */
#ifndef ANSWERS_H
#define ANSWERS_H

#include <stdint.h>

enum { PLAN = 0, NO_PLAN = 1, REFUSED = 2, FAILED = 3 };

/* The sentence that a number stands for; NULL of a number that no call answers. */
const char *sentence_of(uint32_t number);

/* A refusal in words: its number, its sentence and its detail. */
void print_refusal(const char *call, uint32_t number, uint64_t detail);

/* Whether an answer is yes; a refusal is printed. */
int is_yes(const char *call, uint64_t answer);

#endif
