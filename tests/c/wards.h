/* The ward, called by the C tests. */
#ifndef WARDS_H
#define WARDS_H

#include "calls.h"

/* A plan as a call is told it: the lengths of prefix and cycle, and its bytes, which may be more or fewer. */
struct plan {
    uint32_t p, q;
    const uint8_t *bytes;
    size_t length;
};

/*
 * The ward, compared with the plain ward: the answer, and every verdict, which is also the one of judging; where the model is refused, the
 * verdicts are as they were. Start mode, c and b of the wearers are as they were, and so are the lists and the plan. It is done twice, with
 * other junk in the verdicts, and with wearers before and behind the list, which are as they were. The verdicts come to `wearers`.
 */
struct warded ward(const char *what, const struct model *m, struct wearer *wearers, size_t count, struct plan plan);

/* Whether a number is one of the model's, 1, 3, 4 or 5: then no verdict is written. */
int is_of_model(uint32_t number);

/* The ward against what it should answer. */
void warded(const char *what, const struct model *m, struct wearer *wearers, size_t count, struct plan plan, uint32_t number,
    uint64_t detail);

#endif
