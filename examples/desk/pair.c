#include "pair.h"

#include "answers.h"
#include "lines.h"

#include <stdlib.h>
#include <string.h>

/* The bytes of a file. */
struct bytes {
    uint8_t *at;
    size_t length;
};

/* Reads what is left of a file, however long it is; the answer is 0 where there is no memory. */
static int fill_bytes(struct bytes *to, FILE *file)
{
    size_t room = 0, got;

    do {
        if (to->length == room) {
            uint8_t *longer = realloc(to->at, room = 2 * room + 4096);

            if (longer == NULL)
                return 0;
            to->at = longer;
        }
        got = fread(to->at + to->length, 1, room - to->length, file);
        to->length += got;
    } while (got > 0);
    return 1;
}

/* The bytes of a file; the answer is 0 where it cannot be read, with the reason printed. */
static int read_bytes(const char *name, struct bytes *to)
{
    FILE *file = fopen(name, "rb");
    int fine;

    if (file == NULL)
        return wrong_file(name, "opened");
    fine = fill_bytes(to, file);
    if (!fine)
        fprintf(stderr, "%s: no memory for it\n", name);
    else if (ferror(file))
        fine = wrong_file(name, "read");
    fclose(file);
    return fine;
}

/* Prints a refused reading; where it is a line that is refused, after the text's name without its directories. */
static void print_unread(const char *hoa, const char *dimacs, const struct chargeplan_reading *reading)
{
    const char *name = reading->number == CHARGEPLAN_HOA_LINE ? hoa : reading->number == CHARGEPLAN_DIMACS_LINE ? dimacs : NULL;
    const char *slash = name == NULL ? NULL : strrchr(name, '/');

    if (name != NULL)
        printf("%s: ", slash == NULL ? name : slash + 1);
    print_refusal("reading refuses", reading->number, reading->detail);
}

/* Reads the model of a mission from two texts. The answer is an exit status: PLAN where it is read, REFUSED with the reason printed. */
static int read_model(const char *hoa, const struct bytes *h, const char *dimacs, const struct bytes *d, struct mission *m)
{
    struct chargeplan_lists lists = {m->sources, m->targets, m->draws, m->gains, m->met, m->actions, ARCS_KEPT};
    struct chargeplan_model model;
    struct chargeplan_reading reading = chargeplan_model_read(&model, &lists, h->at, h->length, d->at, d->length);

    if (reading.number != CHARGEPLAN_YES) {
        print_unread(hoa, dimacs, &reading);
        return REFUSED;
    }
    m->numbers[MODES] = model.n;
    m->numbers[START] = model.start;
    m->numbers[COLOURS] = model.k;
    m->arcs = model.arcs;
    return PLAN;
}

/* The same from two files; FAILED where one cannot be read, with the reason printed. */
static int read_files(const char *hoa, const char *dimacs, struct mission *m)
{
    struct bytes h = {NULL, 0}, d = {NULL, 0};
    int status = FAILED;

    if (read_bytes(hoa, &h) && read_bytes(dimacs, &d))
        status = read_model(hoa, &h, dimacs, &d, m);
    free(h.at);
    free(d.at);
    return status;
}

/* How the name of a HOA text ends. */
static const char hoa_end[] = ".hoa";

int is_hoa(const char *name)
{
    size_t length = strlen(name), end = strlen(hoa_end);

    return length >= end && strcmp(name + length - end, hoa_end) == 0;
}

int read_pair(const char *hoa, char **words, int count, struct mission *m)
{
    static const char dimacs_end[] = ".dimacs";
    size_t stem = strlen(hoa) - strlen(hoa_end);
    char *dimacs;
    int status;

    memset(m, 0, sizeof *m);
    if (!read_levels(words, count, m))
        return FAILED;
    dimacs = malloc(stem + sizeof dimacs_end);
    if (dimacs == NULL) {
        fprintf(stderr, "no memory for a name\n");
        return FAILED;
    }
    memcpy(dimacs, hoa, stem);
    memcpy(dimacs + stem, dimacs_end, sizeof dimacs_end);
    status = read_files(hoa, dimacs, m);
    free(dimacs);
    return status;
}
