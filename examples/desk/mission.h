/* Missions and habits, and how they are read. */
#ifndef MISSION_H
#define MISSION_H

#include "chargeplan.h"

/* One arc more than the planner takes is kept, so that it refuses a list that is too long by its number. */
enum { ARCS_KEPT = CHARGEPLAN_ARCS_MOST + 1 };

/* The greatest colour that a byte of the list can hold. */
enum { COLOUR_BIT_MOST = 7 };

/* The numbers of a mission, in the order of their words; a habit has those before the bound. */
enum { MODES, START, COLOURS, BOUND, CREDIT, NUMBERS, HABIT_NUMBERS = BOUND };

/* A mission, or a habit, whose bound and credit are 0. */
struct mission {
    uint32_t numbers[NUMBERS];
    int wanted;              /* how many of the numbers it is to have */
    unsigned lines[NUMBERS]; /* where each number stands; 0 where it has not been read */
    uint8_t barred;          /* a bit for each barred colour */
    unsigned barred_line;    /* where they stand; 0 where they have not been read */
    size_t arcs;
    uint8_t sources[ARCS_KEPT];
    uint8_t targets[ARCS_KEPT];
    uint16_t draws[ARCS_KEPT];
    uint16_t gains[ARCS_KEPT];
    uint8_t met[ARCS_KEPT];
    uint8_t actions[ARCS_KEPT];
};

/* The mission or habit of a file, with so many numbers; the answer is 0 where it cannot be read or lacks one, with the reason printed. */
int read_mission(const char *name, int numbers, struct mission *m);

/*
 * The bound, the credit and then, if there is more, "barred" and the barred colours, as arguments of the program; the answer is 0 where a
 * word is wrong, with the reason printed.
 */
int read_levels(char **words, int count, struct mission *m);

/* The mission's model, whose lists stay in the mission. */
struct chargeplan_model model_of(const struct mission *m);

#endif
