/*
 * Plans of joined models: a plan that search finds is a plan of the knee and one of the habit together, and where it finds none there is no
 * such pair of plans.
 */
#include "joins.h"

/* The longest plan of a joined model that is found where there are few triples. */
enum { FOUND_MOST = (CHARGEPLAN_COLOURS_MOST + 2) * PLAIN_TRIPLES_MOST };

/* Takes the arcs of joined ones apart, by the header. */
static void split_plan(const struct model *knee, const struct model *habit, const uint8_t *plan, size_t length, uint8_t *of_knee,
    uint8_t *of_habit)
{
    struct chargeplan_model k = as_one(knee), h = as_one(habit);
    size_t i;

    for (i = 0; i < length; i++) {
        struct chargeplan_pair pair = chargeplan_model_pair(&k, &h, plan[i]);

        of_knee[i] = (uint8_t)pair.knee;
        of_habit[i] = (uint8_t)pair.habit;
    }
}

/* Whether a plan of the joined model is one of knee and habit together. */
static int together(const struct model *knee, const struct model *habit, uint32_t c, uint32_t b, uint32_t p, uint32_t q,
    const uint8_t *plan)
{
    uint8_t of_knee[FOUND_MOST], of_habit[FOUND_MOST];
    struct plans plans = {p, q, of_knee, of_habit};

    split_plan(knee, habit, plan, (size_t)p + q, of_knee, of_habit);
    return plain_together(knee, habit, c, b, plans);
}

/* Search of the joined model finds a plan of both, or there is none. Whether it finds one. */
static int searched_together(const char *what, const struct model *knee, const struct model *habit, const struct model *joined, uint32_t c,
    uint32_t b)
{
    uint8_t plan[FOUND_MOST];
    uint64_t answer = search_exactly(what, joined, c, b, plan);
    uint32_t p = chargeplan_prefix(answer), q = chargeplan_cycle(answer);

    if (chargeplan_number(answer) == CHARGEPLAN_YES)
        check(p + q <= FOUND_MOST && together(knee, habit, c, b, p, q, plan), what);
    check(chargeplan_number(answer) == (plain_has_plans(knee, habit, c, b) ? CHARGEPLAN_YES : CHARGEPLAN_NO_PLAN), what);
    return chargeplan_number(answer) == CHARGEPLAN_YES;
}

/* Some random plans of the joined model: judging says yes exactly where they are plans of both. */
static void judged_together(const struct model *knee, const struct model *habit, const struct model *joined, uint32_t c, uint32_t b)
{
    uint8_t plan[6];
    unsigned tries;

    for (tries = 0; tries < 8 && joined->sources_length > 0; tries++) {
        size_t length = random_plan(joined, plan, sizeof plan);
        uint32_t p = length == 0 ? 0 : below((uint32_t)length), q = (uint32_t)length - p;
        int yes = judge("a joined plan", joined, c, b, p, q, plan, length) == 0;

        check(yes == together(knee, habit, c, b, p, q, plan), "a joined plan");
    }
}

/* A small model with up to so many modes, so many colours, of which an arc meets half, random barred ones, and few actions. */
static struct model random_part(struct lists *to, uint32_t modes, uint32_t k, uint32_t actions)
{
    uint32_t n = 1 + below(modes), arcs = 1 + below(PLAIN_TRIPLES_ARCS_MOST), a;
    struct model m = listed(n, k, to, arcs);

    m.start = below(n);
    m.barred = random_barred();
    for (a = 0; a < arcs; a++) {
        struct arc arc = {below(n), below(n), below(2) * below(6), below(5), below(1u << k), below(actions)};

        put(to, a, arc);
    }
    return m;
}

/* The barred colours of knee and habit as those of the joined model. */
static uint8_t joined_barred(const struct model *knee, const struct model *habit)
{
    return (uint8_t)((knee->barred & ((1u << knee->k) - 1)) | (uint32_t)habit->barred << knee->k);
}

/* Small knees and habits joined; of many there are enough with plans, and enough without. */
void test_random_joined_plans(unsigned long models)
{
    struct lists of_knee, of_habit, lists;
    unsigned long i, with_plans = 0;

    for (i = 0; i < models; i++) {
        uint32_t actions = 1 + below(3), k = below(5);
        struct model knee = random_part(&of_knee, 4, k, actions), habit = random_part(&of_habit, 3, below(5 - k), actions), joined;
        uint32_t b = below(PLAIN_TRIPLES_MOST / (knee.n * habit.n)), c = below(b + 1);
        struct reading r = join_models("a joined plan", &knee, &habit, equal_rooms(CHARGEPLAN_ARCS_MOST), &lists);

        check(r.number == CHARGEPLAN_YES, "a joined plan");
        joined = joined_model(r, &lists);
        joined.barred = joined_barred(&knee, &habit);
        with_plans += (unsigned long)searched_together("a joined plan", &knee, &habit, &joined, c, b);
        judged_together(&knee, &habit, &joined, c, b);
    }
    if (models >= 100)
        check(with_plans >= models / 8 && with_plans <= models - models / 8, "joined models with plans and without");
}

/* What wearers do. */
enum { WALK, CHARGE, RETUNE };

/* A knee that is tuned (mode 0) or worn (mode 1). Walking is its duty, draws more where it is worn, and wears it; retuning mends it. */
static struct model wearing_knee(struct lists *to)
{
    static const struct arc arcs[] = {
        {0, 1, 4, 0, 1, WALK}, {1, 1, 6, 0, 1, WALK}, {0, 0, 0, 8, 0, CHARGE}, {1, 1, 0, 8, 0, CHARGE}, {1, 0, 1, 0, 0, RETUNE}};

    return of_arcs(to, 2, 1, arcs, 5);
}

/* A wearer who walks by day and charges by night, and in the evening retunes, which is a duty, or has never opened the app. */
static struct model wearer(struct lists *to, int retunes)
{
    static const struct arc walk = {0, 1, 0, 0, 0, WALK}, retune = {1, 2, 0, 0, 1, RETUNE}, late = {2, 0, 0, 0, 0, CHARGE},
                            early = {1, 0, 0, 0, 0, CHARGE};

    put(to, 0, walk);
    put(to, 1, retunes ? retune : early);
    put(to, 2, late);
    return listed(retunes ? 3 : 2, (uint32_t)retunes, to, retunes ? 3 : 2);
}

/* The knee's arcs that the cycle found for a wearer has, a bit each; 0 where there is no plan. */
static unsigned arcs_walked(const char *what, const struct model *knee, const struct model *habit, uint32_t c, uint32_t b)
{
    uint8_t plan[FOUND_MOST], of_knee[FOUND_MOST], of_habit[FOUND_MOST];
    struct lists lists;
    struct model joined = joined_model(join_models(what, knee, habit, equal_rooms(CHARGEPLAN_ARCS_MOST), &lists), &lists);
    uint64_t answer;
    uint32_t p, q, i;
    unsigned arcs = 0;

    joined.barred = joined_barred(knee, habit);
    answer = search_exactly(what, &joined, c, b, plan);
    p = chargeplan_prefix(answer);
    q = chargeplan_cycle(answer);
    check(p + q <= FOUND_MOST, what);
    if (chargeplan_number(answer) != CHARGEPLAN_YES || p + q > FOUND_MOST)
        return 0;
    check(together(knee, habit, c, b, p, q, plan), what);
    split_plan(knee, habit, plan, (size_t)p + q, of_knee, of_habit);
    for (i = p; i < p + q; i++)
        arcs |= 1u << of_knee[i];
    return arcs;
}

/* One knee with two wearers: who retunes daily never walks on the worn knee, who does not has no other, and needs a greater bound. */
void test_two_wearers(void)
{
    enum { TUNED = 1 << 0, WORN = 1 << 1, CHARGED = 1 << 3, CHARGED_TUNED = 1 << 2, RETUNED = 1 << 4 };
    struct lists of_knee, of_daily, of_never;
    struct model knee = wearing_knee(&of_knee), daily = wearer(&of_daily, 1), never = wearer(&of_never, 0);

    check(arcs_walked("retunes daily", &knee, &daily, 6, 9) == (TUNED | RETUNED | CHARGED_TUNED), "retunes daily");
    check(arcs_walked("never retunes", &knee, &never, 6, 9) == (WORN | CHARGED), "never retunes");
    check(arcs_walked("retunes daily, a small bound", &knee, &daily, 5, 5) == (TUNED | RETUNED | CHARGED_TUNED), "retunes daily");
    check(arcs_walked("never retunes, a small bound", &knee, &never, 5, 5) == 0, "never retunes, a small bound");
    of_never.draws[0] = 3;
    check(arcs_walked("a longer way", &knee, &never, 8, 9) == 0, "a longer way");
    of_never.gains[1] = 1;
    check(arcs_walked("a longer way, and a better charger", &knee, &never, 8, 9) == (WORN | CHARGED), "a longer way");
}

/* A wearer who in the evening retunes, which is a duty, and then charges, or charges at once. */
static struct model free_wearer(struct lists *to)
{
    static const struct arc arcs[] = {{0, 1, 0, 0, 0, WALK}, {1, 2, 0, 0, 1, RETUNE}, {2, 0, 0, 0, 0, CHARGE}, {1, 0, 0, 0, 0, CHARGE}};

    return of_arcs(to, 3, 1, arcs, 4);
}

/* Barred duties of the habit, of the knee and of both, and bits that are none of theirs. */
void test_barred_duties(void)
{
    enum { TUNED = 1 << 0, WORN = 1 << 1, CHARGED_TUNED = 1 << 2, CHARGED = 1 << 3, RETUNED = 1 << 4 };
    struct lists of_knee, of_habit;
    struct model knee = wearing_knee(&of_knee), habit = free_wearer(&of_habit);

    check(arcs_walked("retuning is required", &knee, &habit, 6, 9) == (TUNED | RETUNED | CHARGED_TUNED), "retuning is required");
    habit.barred = 1;
    check(arcs_walked("retuning is barred", &knee, &habit, 6, 9) == (WORN | CHARGED), "retuning is barred");
    check(arcs_walked("retuning is barred, a small bound", &knee, &habit, 5, 5) == 0, "retuning is barred, a small bound");
    habit.barred = 0xff;
    knee.barred = 0xfe;
    check(arcs_walked("ignored bits of both", &knee, &habit, 6, 9) == (WORN | CHARGED), "ignored bits of both");
    knee.barred = 1;
    check(arcs_walked("walking is barred, too", &knee, &habit, 6, 9) == 0, "walking is barred, too");
    habit.barred = 0;
    check(arcs_walked("walking alone is barred", &knee, &habit, 6, 9) == 0, "walking alone is barred");
}
