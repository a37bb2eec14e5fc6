/*
 * The fitting desk: reads a mission (the model of a knee, battery size and charge on arrival), searches a plan for it, judges it, and
 * runs it on the bench: a gauge is stepped through the prefix and two rounds of the cycle, and shows what each step loses at the bound;
 * a walk tells at which step each colour is first met. Where the habit of a wearer is given, the knee is joined with it first. Where a ward
 * is given, the plan is not run: it is judged for each wearer of the ward. Where a recall is given, it is not run either: arcs are switched
 * off and on, and the mission is planned again after each visit. Where there is no plan, the desk says what would do, if it is asked.
 *
 *     desk MISSION
 *     desk MISSION HABIT
 *     desk -w MISSION WARD
 *     desk -r MISSION RECALL
 *     desk NAME.hoa BOUND CREDIT [barred COLOUR..]
 *     desk -h
 *
 * A mission is a text of lines, in any order: "modes N", "start MODE", "colours K", "bound B" and "credit C", each once, and for
 * each arc "arc SOURCE TARGET MOVE COLOUR.. @ACTION", with the numbers of the colours that the arc meets and its action. A move is one
 * word: "-9" draws 9, "5" or "+5" gains 5, "0" does nothing, and "-5+8" draws 5 first and then gains 8. The action is the last word, as
 * "@3"; an arc without one has action 0. Other numbers have no sign: "-5 +3" cannot be read, but "-5 3" can, as a draw of 5 and colour
 * 3. What follows a '#' is a comment. A line has at most 250 characters and ends with LF, with CR LF or with the file. A NUL byte cannot
 * be read, nor a CR elsewhere, not even in a comment. Of the first line that cannot be read stderr has the number and what is wrong in it.
 *
 * One line more, "barred COLOUR..", may name colours that have to die out: the plan may meet them in its prefix, and its cycle does not.
 * The answer then tells what is barred, and what becomes of the plan with nothing barred, where there is one: judging refuses it by 24.
 * A colour that the model has not is ignored, and told.
 *
 * With -a before all other arguments the fitter asks for advice. Where there is no plan, three lines more then let the fitter choose what
 * to change, all else as it is: the least bound with which there is one, up to the largest that the planner takes for this number of modes;
 * the least credit with which there is one; and each required colour without which there is one, the duty left out of the model. A line says
 * "none" where nothing of its kind would do. Barred colours stay barred, and arcs that are off stay off.
 *
 * A habit is written as a mission is, without "bound" and "credit"; "barred" has its own colours there. The planner joins the mission's
 * knee with it, and the joined model is planned with the mission's bound and credit: each step is an arc of the knee and an arc of the
 * habit with the same action. A refused join is told as the knee's, as the habit's, or by the size of both together.
 *
 * A ward is a text of lines "wearer NAME START CREDIT BOUND", any number of them, also none, with comments and ends as in a mission: the
 * name, one word of at most 40 characters, and the start mode, charge on arrival and battery size of that wearer's knee. The mission is
 * planned with its own start mode, credit and bound, and the plan found is judged for each wearer with those of the wearer. A line for each
 * tells whether he or she can have it, or by which number judging refuses it; the last line is the answer for the ward, with the place,
 * counted from 0, and the name of the first who cannot have it. Two wearers may have one name.
 *
 * A recall is a text of lines "off ARC.." and "on ARC..", any number of them, with comments and ends as in a mission: each is a visit at
 * which these arcs, by their numbers, are switched. The mission is planned with every arc on, and after each visit once more; the answer
 * tells whether the plan of the visit before has an arc that is off, which modes are no longer reached, or with another charge than before,
 * and the plan that there is now, or that there is none. Where the mission has no plan with every arc on, no visit is made.
 *
 * In place of a mission the model may stand in two texts, NAME.hoa and beside it NAME.dimacs, with the battery size BOUND and the charge
 * on arrival CREDIT, and with barred colours, if there are any. The planner reads them, and include/chargeplan.h has their forms (THE
 * TEXTS). A damaged text is refused with its name and its line. All arcs have action 0 there, so no habit can be given with it, nor a ward
 * or a recall.
 * Exit status: 0 a plan, with -w one that all wearers can have, with -r after the last visit, or -h; 1 no plan exists, with -r after the
 * last visit; 2 refused, with -w also where a wearer cannot have the plan; 3 the mission, the habit, the ward or the recall cannot be read,
 * the answer cannot be written, or there is no memory.
 */
#include "advice.h"
#include "answers.h"
#include "join.h"
#include "lines.h"
#include "mission.h"
#include "pair.h"
#include "plan.h"
#include "recall.h"
#include "ward.h"

#include <stdio.h>
#include <stdlib.h>
#include <string.h>

static void print_mission_help(void)
{
    printf("Searches a plan for a mission, judges it and runs it on the bench. A mission is a text of lines, in any order:\n"
           "\n"
           "    modes N                            how many modes, numbered from 0\n"
           "    start MODE                         the mode on arrival\n"
           "    colours K                          how many colours (duties), numbered from 0\n"
           "    bound B                            the battery size\n"
           "    credit C                           the charge on arrival\n"
           "    barred COLOUR..                    colours that may be met in the prefix, and not in the cycle; may be left out\n"
           "    arc SOURCE TARGET MOVE COLOUR.. @ACTION\n"
           "                                       one for each arc, with the numbers of the colours that it meets, and its action\n"
           "\n"
           "MOVE is -DRAW, GAIN, +GAIN or -DRAW+GAIN. An arc without @ACTION has action 0. What follows a '#' is a comment. A line has\n"
           "at most %d characters.\n"
           "\n",
        LINE);
}

static void print_help(void)
{
    printf("usage: desk MISSION\n"
           "       desk MISSION HABIT\n"
           "       desk -w MISSION WARD\n"
           "       desk -r MISSION RECALL\n"
           "       desk NAME.hoa BOUND CREDIT [barred COLOUR..]\n"
           "       desk -a .., any of these with advice\n"
           "\n");
    print_mission_help();
    printf("HABIT is a text of the same lines without bound and credit: what the wearer of the knee does; colours are its own. The knee\n"
           "is joined with it: each step of the plan is an arc of the knee and an arc of the habit with the same action.\n"
           "\n"
           "WARD is a text of lines\n"
           "\n"
           "    wearer NAME START CREDIT BOUND     a wearer, by a word of at most %d characters, and mode on arrival, charge on arrival\n"
           "                                       and battery size of that wearer's knee\n"
           "\n"
           "The plan of the mission is judged for each wearer, and not run.\n"
           "\n"
           "RECALL is a text of lines\n"
           "\n"
           "    off ARC..                          a visit at which these arcs are switched off\n"
           "    on ARC..                           a visit at which these arcs are switched on again\n"
           "\n"
           "The mission is planned with every arc on, and again after each visit, with arcs that are on alone; the plans are not run.\n"
           "\n"
           "With -a before all other arguments, where there is no plan, what would do is told, all else as it is: the least battery size,\n"
           "the least charge on arrival, and each colour without which there is one.\n"
           "\n"
           "In place of a mission the model may stand in two texts: NAME.hoa, in HOA version 1, and beside it NAME.dimacs, in the DIMACS\n"
           "shortest-path form. include/chargeplan.h says which lines they have.\n"
           "\n"
           "Exit status: 0 a plan, with -w one that all wearers can have, with -r after the last visit, 1 no plan exists, with -r after\n"
           "the last visit, 2 refused, with -w also where a wearer cannot have the plan, 3 the mission, the habit, the ward or the recall\n"
           "cannot be read, the answer cannot be written, or there is no memory.\n",
        NAME);
}

/* The exit status once all that was printed is written; 3 where it cannot be. */
static int close_output(int status)
{
    int failed = ferror(stdout);

    if (fclose(stdout) == 0 && !failed)
        return status;
    fprintf(stderr, "desk: standard output cannot be written\n");
    return FAILED;
}

/* Plans a mission. */
static int answer_mission(const struct mission *m)
{
    struct task task = task_of(m);

    print_ignored(m, "model");
    return answer_task(&task);
}

/* Plans the mission of a file for the ward of another. */
static int answer_ward_file(const char *mission, const char *ward)
{
    struct mission m;
    struct ward w;
    int status = FAILED;

    if (!read_mission(mission, NUMBERS, &m))
        return FAILED;
    if (read_ward(ward, &w))
        status = answer_ward(&m, &w);
    free_ward(&w);
    return status;
}

/* Plans the mission of a file under the recall of another. */
static int answer_recall_file(const char *mission, const char *recall)
{
    struct mission m;
    struct recall r;
    int status = FAILED;

    if (!read_mission(mission, NUMBERS, &m))
        return FAILED;
    if (read_recall(recall, &r))
        status = answer_recall(&m, &r);
    free_recall(&r);
    return status;
}

/* Where the arguments are wrong. */
static int misused(void)
{
    fprintf(stderr, "usage: desk MISSION, desk MISSION HABIT, desk -w MISSION WARD, desk -r MISSION RECALL, or desk NAME.hoa BOUND CREDIT "
                    "(desk -h says what they are)\n");
    return FAILED;
}

/* Plans a mission with the text of an option. */
static int answer_option(const char *option, const char *mission, const char *text)
{
    if (is_hoa(mission) || is_hoa(text))
        return misused();
    return strcmp(option, "-w") == 0 ? answer_ward_file(mission, text) : answer_recall_file(mission, text);
}

/* Plans what the arguments name. The answer is an exit status. */
static int answer_arguments(int argc, char **argv)
{
    struct mission m, habit;
    int status;

    if (argc > 1 && (strcmp(argv[1], "-w") == 0 || strcmp(argv[1], "-r") == 0))
        return argc == 4 ? answer_option(argv[1], argv[2], argv[3]) : misused();
    if (argc == 2 && !is_hoa(argv[1]))
        return read_mission(argv[1], NUMBERS, &m) ? answer_mission(&m) : FAILED;
    if (argc == 3 && !is_hoa(argv[1]) && !is_hoa(argv[2]))
        return read_mission(argv[1], NUMBERS, &m) && read_mission(argv[2], HABIT_NUMBERS, &habit) ? answer_joined(&m, &habit)
                                                                                                  : FAILED;
    if (argc >= 4 && is_hoa(argv[1])) {
        status = read_pair(argv[1], argv + 2, argc - 2, &m);
        return status == PLAN ? answer_mission(&m) : status;
    }
    return misused();
}

int main(int argc, char **argv)
{
    int status;

    if (argc > 1 && strcmp(argv[1], "-a") == 0) {
        ask_for_advice();
        argc--;
        argv++;
    }
    if (argc == 2 && (strcmp(argv[1], "-h") == 0 || strcmp(argv[1], "--help") == 0)) {
        print_help();
        return close_output(EXIT_SUCCESS);
    }
    status = answer_arguments(argc, argv);
    return status == FAILED ? FAILED : close_output(status);
}
