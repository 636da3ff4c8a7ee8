/* rivals.c: a few plans beside the one that gz_plan writes: none is cheaper, and none that costs as
 * much comes first. */
#include "rivals.h"

#include <string.h>

#include "joints.h"
#include "require.h"

/* Up to so many cabinets all are tried, else some. */
enum { FEW = 6, SOME = 3 };

/* What rivals are held against, the plan that one service is moved in, and what was met. */
struct contest {
    const struct run *run;
    const struct reading *reading;
    const struct planning *planning;
    size_t r;
    size_t s;
    uint16_t base[MOST_SERVICES];
    struct rivals met;
};

void require_not_better(const struct planning *planning, const struct checking *checking)
{
    if (checking->number != 0)
        return;
    require(planning->number != 12, "12  no valid plan exists");
    if (planning->number == 0)
        require(checking->answer[1] >= planning->answer[1], "Finds a cheapest plan");
}

/* True if the first place in which the plans differ has a lower cabinet in the one. */
static int comes_before(const uint16_t *one, const uint16_t *other, size_t r)
{
    size_t i = 0;

    while (i < r && one[i] == other[i])
        i++;
    return i < r && one[i] < other[i];
}

/* True if joints alone keep a rival from being written. */
static int is_kept_off(const struct contest *contest, const struct checking *checking,
                       const uint16_t *rival)
{
    const struct planning *planning = contest->planning;

    if (!checking->valid_otherwise)
        return 0;
    return planning->number == 12 || checking->cost_otherwise < planning->answer[1]
           || (checking->cost_otherwise == planning->answer[1]
               && comes_before(rival, planning->plan, contest->r));
}

static void try_rival(struct contest *contest, const uint16_t *rival)
{
    const struct planning *planning = contest->planning;
    struct checking checking = check_plan(contest->run, contest->reading, rival, contest->r);

    require_not_better(planning, &checking);
    contest->met.kept_off += (size_t)is_kept_off(contest, &checking, rival);
    if (planning->number != 0 || checking.number != 0
        || checking.answer[1] != planning->answer[1])
        return;
    require(!comes_before(rival, planning->plan, contest->r),
            "the one with the lowest cabinet for service 0, then for service 1, and so on");
    contest->met.ties += memcmp(rival, planning->plan, contest->r * sizeof *rival) != 0;
}

/* How many of the cabinets below a number are tried. */
static size_t tries(size_t below)
{
    return below <= FEW ? below : SOME;
}

/* The cabinet of a try: each in turn, or the first, the last, and others that the input draws. */
static uint16_t cabinet_of(const struct contest *contest, size_t number, size_t below)
{
    if (below <= FEW || number == 0)
        return (uint16_t)number;
    if (number == 1)
        return (uint16_t)(below - 1);
    return (uint16_t)(input_word(contest->run->input, number) % below);
}

/* One service on a cabinet that the input draws. */
static void move_one(struct contest *contest)
{
    size_t i;

    for (i = 0; i < contest->r; i++) {
        uint16_t rival[MOST_SERVICES];

        memcpy(rival, contest->base, sizeof rival);
        rival[i] = (uint16_t)(input_word(contest->run->input, i) % contest->s);
        try_rival(contest, rival);
    }
}

/* A rival that has a lower cabinet for a service, as it is and with one later service anywhere. */
static void move_later(struct contest *contest, size_t service, const uint16_t *lowered)
{
    size_t later;
    size_t k;

    try_rival(contest, lowered);
    for (later = service + 1; later < contest->r; later++)
        for (k = 0; k < tries(contest->s); k++) {
            uint16_t rival[MOST_SERVICES];

            memcpy(rival, lowered, sizeof rival);
            rival[later] = cabinet_of(contest, k, contest->s);
            try_rival(contest, rival);
        }
}

/* One service on a lower cabinet. */
static void lower_one(struct contest *contest)
{
    const uint16_t *plan = contest->planning->plan;
    size_t i;
    size_t k;

    for (i = 0; i < contest->r; i++)
        for (k = 0; k < tries(plan[i]); k++) {
            uint16_t lowered[MOST_SERVICES];

            memcpy(lowered, plan, sizeof lowered);
            lowered[i] = cabinet_of(contest, k, plan[i]);
            move_later(contest, i, lowered);
        }
}

/* Two services that have changed places. */
static void exchange(struct contest *contest)
{
    const uint16_t *plan = contest->planning->plan;
    size_t i;
    size_t other;

    for (i = 0; i < contest->r; i++)
        for (other = i + 1; other < contest->r; other++) {
            uint16_t rival[MOST_SERVICES];

            memcpy(rival, plan, sizeof rival);
            rival[i] = plan[other];
            rival[other] = plan[i];
            try_rival(contest, rival);
        }
}

/* Some of the first services each on a lower cabinet, in all combinations. */
static void lower_some(struct contest *contest)
{
    const uint16_t *plan = contest->planning->plan;
    size_t few = contest->r < FEW ? contest->r : FEW;
    size_t set;
    size_t i;

    for (set = 1; set < (size_t)1 << few; set++) {
        uint16_t rival[MOST_SERVICES];

        memcpy(rival, plan, sizeof rival);
        for (i = 0; i < few; i++)
            if (set >> i & 1 && plan[i] > 0)
                rival[i] = (uint16_t)(input_word(contest->run->input, i) % plan[i]);
        try_rival(contest, rival);
    }
}

/* The plan written, or all services on the first cabinet that is no joint; on the root if all
 * are. */
static void take_base(struct contest *contest)
{
    uint16_t c = 0;
    size_t i;

    memcpy(contest->base, contest->planning->plan, sizeof contest->base);
    if (contest->planning->number == 0)
        return;
    while (c < contest->s && is_joint(contest->run->input->sheet, c))
        c++;
    for (i = 0; i < contest->r && c < contest->s; i++)
        contest->base[i] = c;
}

struct rivals require_no_rival(const struct run *run, const struct reading *reading,
                               const struct planning *planning)
{
    struct contest contest = {run, reading, planning, 0, 0, {0}, {0, 0}};

    contest.r = (size_t)reading->counts[1];
    contest.s = (size_t)reading->counts[2];
    if (!is_taken(planning))
        return contest.met;
    take_base(&contest);
    move_one(&contest);
    if (planning->number == 12)
        return contest.met;
    lower_one(&contest);
    exchange(&contest);
    lower_some(&contest);
    return contest.met;
}
