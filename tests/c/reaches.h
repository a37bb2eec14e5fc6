/* The reach, called by the C tests. */
#ifndef REACHES_H
#define REACHES_H

#include "calls.h"
#include "plain_reach.h"

/* A fresh reach with the model's switches; the lists are as they were. */
struct chargeplan_reached start_reach(const char *what, const struct model *m, uint32_t c, uint32_t b);

/* A switching of a reach; the lists are as they were. The model's switches are not looked at. */
struct chargeplan_reached switch_reach(const char *what, struct chargeplan_reach r, const struct model *m, uint32_t c, uint32_t b,
    uint32_t arc, uint8_t on);

/* Two reaches are the same, in every switch and every place. */
int same_reach(struct chargeplan_reach x, struct chargeplan_reach y);
void check_same_reach(const char *what, struct chargeplan_reach r, struct chargeplan_reach expected);

/* A fresh reach compared with the plain one, answer and reach. */
struct chargeplan_reach reach_started(const char *what, const struct model *m, uint32_t c, uint32_t b);

/*
 * A switching compared with the plain one. Where the arc is so already, the reach is as it was; any other switching that is not refused
 * gives a fresh one.
 */
struct chargeplan_reach reach_switched(const char *what, struct chargeplan_reach r, const struct model *m, uint32_t c, uint32_t b,
    uint32_t arc, uint8_t on);

/* A fresh reach, compared with the plain one, has these charges, one for each mode. */
void reaches(const char *what, const struct model *m, uint32_t c, uint32_t b, const uint16_t *charges);

/* A reach of any switches and charges, which no call need have made. */
struct chargeplan_reach junk_reach(unsigned junk);

/* A fresh reach is refused by one of 1 to 6: every mode is unreached, and the switches are as they were given, whatever they are. */
void start_refused(const char *what, const struct model *m, uint32_t c, uint32_t b, uint32_t number, uint32_t detail);

/* A switching of any arc on or off is refused, and any reach is as it was. */
void switch_refused(const char *what, const struct model *m, uint32_t c, uint32_t b, uint32_t arc, uint32_t number, uint32_t detail);

#endif
