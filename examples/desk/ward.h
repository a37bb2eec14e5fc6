/* One plan for a ward of wearers. */
#ifndef WARD_H
#define WARD_H

#include "mission.h"

/* The most characters of a wearer's name. */
enum { NAME = 40 };

/* The wearers of a ward and their names, in one order. */
struct ward {
    struct chargeplan_wearer *wearers;
    char (*names)[NAME + 1];
    size_t count, room;
};

/* The ward of a file; the answer is 0 where it cannot be read, with the reason printed. It is freed in any case. */
int read_ward(const char *name, struct ward *w);

void free_ward(struct ward *w);

/* Plans a mission, has the plan judged for each wearer of a ward, and tells who can have it. The answer is an exit status. */
int answer_ward(const struct mission *m, struct ward *w);

#endif
