/* Knees joined with the habits of their wearers. */
#ifndef JOIN_H
#define JOIN_H

#include "mission.h"

/*
 * Joins the knee of a mission with a habit, and plans the joined model with the mission's credit and bound. The answer is an exit
 * status.
 */
int answer_joined(const struct mission *m, const struct mission *h);

#endif
