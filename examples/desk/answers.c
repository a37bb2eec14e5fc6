#include "answers.h"

#include "chargeplan.h"

#include <inttypes.h>
#include <stdio.h>

/* The sentence that each number stands for, and what its detail is. A number that no call answers has no sentence. */
static const struct {
    const char *sentence;
    const char *detail;
} meanings[] = {
    [CHARGEPLAN_YES] = {"yes", NULL},
    [CHARGEPLAN_HOA_LINE] = {"a line is outside the forms of a HOA text, or missing", "line"},
    [CHARGEPLAN_DIMACS_LINE] = {"a line is outside the forms of a DIMACS text, or missing", "line"},
    [CHARGEPLAN_TEXTS_DISAGREE] = {"the two texts disagree in the number of modes or arcs, or in the ends of an arc", NULL},
    [CHARGEPLAN_MODE_COUNT] = {"the number of modes is 0 or above 64", NULL},
    [CHARGEPLAN_START_MODE] = {"the start mode is not below the number of modes", NULL},
    [CHARGEPLAN_ARC_LISTS] = {"the six arc lists are of unequal length, or longer than 255", NULL},
    [CHARGEPLAN_COLOUR_COUNT] = {"there are more than 4 colours", NULL},
    [CHARGEPLAN_UNFIT_ARC] = {
        "an arc has a mode or a colour that the model has not, a draw or a gain above 10,000, or an action above 15", "arc"},
    [CHARGEPLAN_JOIN_SIZE] = {
        "knee and habit together have more than 64 modes, 255 arcs or 4 colours, or an arc with a draw or a gain above 10,000", NULL},
    [CHARGEPLAN_LEVELS] = {"the bound is above 8,191, or the credit is above the bound", NULL},
    [CHARGEPLAN_MIXED_GAUGE] = {"the number of modes or arcs, or the bound, is not the one that the gauge was started with", NULL},
    [CHARGEPLAN_PRODUCT] = {"modes times (bound + 1) is above 8,192", NULL},
    [CHARGEPLAN_WORKING_SPACE] = {"the working space is too short", NULL},
    [CHARGEPLAN_PLAN_BUFFER] = {"the plan buffer is too short", NULL},
    [CHARGEPLAN_NO_PLAN] = {"no plan exists", NULL},
    [CHARGEPLAN_PLAN_LENGTH] = {"the cycle is empty, the lengths do not add up, or the plan is longer than 65,535", NULL},
    [CHARGEPLAN_ARC_NUMBER] = {"an arc number is not below the number of arcs", "position"},
    [CHARGEPLAN_OTHER_MODE] = {"an arc leaves another mode than the current one", "position"},
    [CHARGEPLAN_OPEN_CYCLE] = {"the cycle ends in another mode than it began", NULL},
    [CHARGEPLAN_IMPOSSIBLE_STEP] = {"a step is impossible", "step"},
    [CHARGEPLAN_FALLING_CYCLE] = {"the first and the second round each end lower than they began", NULL},
    [CHARGEPLAN_BARRED_COLOUR] = {"an arc of the cycle has a barred colour", "position"},
    [CHARGEPLAN_MISSING_COLOUR] = {"a colour is missing from the cycle", "colour"},
    [CHARGEPLAN_NO_SUCH_COLOUR] = {"there is no such colour", NULL},
};

const char *sentence_of(uint32_t number)
{
    return number < sizeof meanings / sizeof meanings[0] ? meanings[number].sentence : NULL;
}

void print_refusal(const char *call, uint32_t number, uint64_t detail)
{
    if (sentence_of(number) == NULL) {
        printf("%s: %u, detail %" PRIu64 "\n", call, (unsigned)number, detail);
        return;
    }
    printf("%s: %u, detail %" PRIu64 ": %s", call, (unsigned)number, detail, meanings[number].sentence);
    if (meanings[number].detail != NULL)
        printf(" (%s %" PRIu64 ")", meanings[number].detail, detail);
    printf("\n");
}

int is_yes(const char *call, uint64_t answer)
{
    if (chargeplan_number(answer) == CHARGEPLAN_YES)
        return 1;
    print_refusal(call, chargeplan_number(answer), chargeplan_detail(answer));
    return 0;
}
