#include "plain_least.h"

#include "plain_decide.h"

/* The largest b for which n * (b + 1) is at most 8,192. */
static uint32_t largest_bound(uint32_t n)
{
    uint32_t b = 0;

    while (n * (b + 2) <= 8192)
        b++;
    return b;
}

/* "for given b the least c with a plan, and for given c the least b, not below c, with a plan and within the search's product ceiling" */
uint32_t plain_first_tried(enum least of, uint32_t given)
{
    return of == LEAST_CREDIT ? 0 : given;
}

uint32_t plain_last_tried(enum least of, const struct model *m, uint32_t given)
{
    return of == LEAST_CREDIT ? given : largest_bound(m->n);
}

/* "it is sized for the largest b that may be tried" */
size_t plain_least_words(enum least of, const struct model *m, uint32_t given)
{
    return (size_t)4 * (m->k + 1) * m->n * (plain_last_tried(of, m, given) + 1);
}

/* "A c that as b would already pass that ceiling is 7, with 6 not looked at." */
static uint32_t level_refusal(enum least of, const struct model *m, uint32_t given)
{
    if (of == LEAST_CREDIT && given > 8191)
        return 6;
    return given > largest_bound(m->n) ? 7 : 0;
}

struct verdict plain_least_refusal(enum least of, const struct model *m, uint32_t given, size_t words)
{
    /* With these levels 6 does not apply. */
    struct verdict v = plain_fitness(m, 0, 0);

    if (v.number == 0)
        v.number = level_refusal(of, m, given);
    if (v.number == 0 && words < plain_least_words(of, m, given))
        v.number = 8;
    return v;
}

int plain_serves(enum least of, const struct model *m, uint32_t given, uint32_t tried)
{
    return of == LEAST_CREDIT ? plain_has_plan_of_many_pairs(m, tried, given) : plain_has_plan_of_many_pairs(m, given, tried);
}
