/* faults_framing.c: gz_check and gz_plan, which take framing wrongly on purpose. */
#include <string.h>

#include "faults.h"
#include "layout.h"
#include "lent.h"
#include "loads.h"

/* A way to take framing. */
struct way {
    uint64_t units; /* for each stream that is framed */
    int priced;     /* these units are priced too */
    /* If there is one, changes how many streams are framed. */
    void (*change)(struct loads *loads, const uint8_t *sheet, const uint16_t *plan);
};

static uint64_t price_framing(const uint8_t *sheet, const struct loads *loads, uint64_t units)
{
    uint64_t cost = 0;
    size_t c;
    int direction;

    for (c = 1; c < count_of(sheet, CABINETS); c++)
        for (direction = UP; direction < DIRECTIONS; direction++)
            cost += units * loads->of[c][direction].framed * price_of(sheet, c, direction);
    return cost;
}

/* Where no other refusal applies, 16 and the cost are reckoned this way. */
static void check_by(struct check *call, const struct way *way)
{
    const uint8_t *sheet = call->sheet.bytes;
    struct loads loads;

    real_check(call);
    if (call->number != 0 && call->number != 16)
        return;
    reckon_loads(&loads, sheet, call->plan);
    if (way->change != NULL)
        way->change(&loads, sheet, call->plan);
    call->number = has_overfull_line(sheet, &loads, way->units) ? 16 : 0;
    call->answer[0] = call->number == 0 ? 0 : 4;
    call->answer[1] = call->number == 0 ? cost_of(sheet, call->plan, &loads) : 0;
    if (call->number == 0 && way->priced)
        call->answer[1] += price_framing(sheet, &loads, way->units);
}

/* Writes the first of the plans that are cheapest this way, or leaves the output with 12. */
static void search_by(struct plan *call, const struct way *way, struct counts counts)
{
    uint16_t plan[MOST_SERVICES] = {0};
    uint64_t answer[2];
    struct check check = {call->sheet, plan, counts.r, answer, 0};

    call->number = 12;
    call->answer[0] = 3;
    call->answer[1] = 0;
    do {
        check_by(&check, way);
        if (check.number == 0 && (call->number == 12 || answer[1] < call->answer[1])) {
            memcpy(call->output, plan, counts.r * sizeof *plan);
            call->number = 0;
            call->answer[0] = 0;
            call->answer[1] = answer[1];
        }
    } while (next_plan(plan, counts));
}

/* The plan is found this way, if the road has few. */
static void plan_by(struct plan *call, const struct way *way)
{
    struct counts counts = counts_of(call->sheet);
    uint16_t held[MOST_PLACES];

    memcpy(held, call->output, call->output_len * sizeof *held);
    real_plan(call);
    if ((call->number == 0 || call->number == 12) && has_few_plans(counts)) {
        memcpy(call->output, held, call->output_len * sizeof *held);
        search_by(call, way, counts);
    }
}

static void frame_idle(struct loads *loads, const uint8_t *sheet, const uint16_t *plan)
{
    size_t c;
    int direction;

    (void)plan;
    for (c = 1; c < count_of(sheet, CABINETS); c++)
        for (direction = UP; direction < DIRECTIONS; direction++)
            loads->of[c][direction].framed += loads->of[c][direction].idle;
}

static void frame_directions(struct loads *loads, const uint8_t *sheet, const uint16_t *plan)
{
    size_t c;
    int direction;

    (void)plan;
    for (c = 1; c < count_of(sheet, CABINETS); c++)
        for (direction = UP; direction < DIRECTIONS; direction++)
            loads->of[c][direction].framed = loads->of[c][direction].framed > 0;
}

static void frame_up(struct loads *loads, const uint8_t *sheet, const uint16_t *plan)
{
    size_t c;

    (void)plan;
    for (c = 1; c < count_of(sheet, CABINETS); c++)
        loads->of[c][DOWN].framed = 0;
}

/* True if an earlier stream of demand above 0 runs from the same service to the same one. */
static int repeats_ends(const uint8_t *sheet, size_t stream)
{
    size_t i;

    for (i = 0; i < stream; i++)
        if (field_at(sheet, STREAMS, i, 0) == field_at(sheet, STREAMS, stream, 0)
            && field_at(sheet, STREAMS, i, 1) == field_at(sheet, STREAMS, stream, 1)
            && field_at(sheet, STREAMS, i, 2) > 0)
            return 1;
    return 0;
}

static void frame_pairs(struct loads *loads, const uint8_t *sheet, const uint16_t *plan)
{
    struct step steps[MOST_CABINETS];
    size_t stream;

    for (stream = 0; stream < count_of(sheet, STREAMS); stream++) {
        size_t many = walk(sheet, plan, stream, steps);

        if (field_at(sheet, STREAMS, stream, 2) > 0 && repeats_ends(sheet, stream))
            while (many-- > 0)
                loads->of[steps[many].cabinet][steps[many].direction].framed--;
    }
}

/* The first link of a path is the one that leaves the cabinet where the stream comes from. */
static void frame_first_links(struct loads *loads, const uint8_t *sheet, const uint16_t *plan)
{
    struct step steps[MOST_CABINETS];
    size_t stream;

    for (stream = 0; stream < count_of(sheet, STREAMS); stream++) {
        size_t home = plan[field_at(sheet, STREAMS, stream, 0)];
        size_t many = walk(sheet, plan, stream, steps);

        while (many-- > 0 && field_at(sheet, STREAMS, stream, 2) > 0) {
            size_t cabinet = steps[many].cabinet;
            size_t parent = field_at(sheet, CABINETS, cabinet, 0);

            if ((steps[many].direction == UP ? cabinet : parent) != home)
                loads->of[cabinet][steps[many].direction].framed--;
        }
    }
}

static const struct way unframed = {0, 0, NULL};
static const struct way less = {FRAMING - 1, 0, NULL};
static const struct way more = {FRAMING + 1, 0, NULL};
static const struct way doubled = {2 * FRAMING, 0, NULL};
static const struct way priced = {FRAMING, 1, NULL};
static const struct way idle_too = {FRAMING, 0, frame_idle};
static const struct way once_a_pair = {FRAMING, 0, frame_pairs};
static const struct way once_a_direction = {FRAMING, 0, frame_directions};
static const struct way up_only = {FRAMING, 0, frame_up};
static const struct way first_link_only = {FRAMING, 0, frame_first_links};

static void check_unframed(struct check *call)
{
    check_by(call, &unframed);
}

static void check_less(struct check *call)
{
    check_by(call, &less);
}

static void check_more(struct check *call)
{
    check_by(call, &more);
}

static void check_priced(struct check *call)
{
    check_by(call, &priced);
}

static void check_idle_too(struct check *call)
{
    check_by(call, &idle_too);
}

static void check_once_a_pair(struct check *call)
{
    check_by(call, &once_a_pair);
}

static void check_once_a_direction(struct check *call)
{
    check_by(call, &once_a_direction);
}

static void check_up_only(struct check *call)
{
    check_by(call, &up_only);
}

static void check_first_link_only(struct check *call)
{
    check_by(call, &first_link_only);
}

static void plan_unframed(struct plan *call)
{
    plan_by(call, &unframed);
}

static void plan_doubled(struct plan *call)
{
    plan_by(call, &doubled);
}

static void plan_priced(struct plan *call)
{
    plan_by(call, &priced);
}

/* The plan that is cheapest with framing priced, with its true cost. */
static void plan_chooses_priced(struct plan *call)
{
    uint64_t answer[2];
    struct check check = {call->sheet, call->output, counts_of(call->sheet).r, answer, 0};

    plan_by(call, &priced);
    if (call->number == 0) {
        real_check(&check);
        call->answer[1] = answer[1];
    }
}

static void plan_idle_too(struct plan *call)
{
    plan_by(call, &idle_too);
}

static void plan_once_a_pair(struct plan *call)
{
    plan_by(call, &once_a_pair);
}

static void plan_once_a_direction(struct plan *call)
{
    plan_by(call, &once_a_direction);
}

static void plan_up_only(struct plan *call)
{
    plan_by(call, &up_only);
}

const struct fault framing_faults[] = {
    {.what = "gz_check counts no framing", .check = check_unframed},
    {.what = "gz_check counts 1 for framing", .check = check_less},
    {.what = "gz_check counts 3 for framing", .check = check_more},
    {.what = "gz_check counts framing for a demand of 0 too", .check = check_idle_too},
    {.what = "gz_check counts framing once for each pair of ends", .check = check_once_a_pair},
    {.what = "gz_check counts framing once for each direction", .check = check_once_a_direction},
    {.what = "gz_check counts framing on the way up only", .check = check_up_only},
    {.what = "gz_check counts framing on the first link only", .check = check_first_link_only},
    {.what = "gz_check prices framing", .check = check_priced},
    {.what = "gz_plan counts no framing", .plan = plan_unframed},
    {.what = "gz_plan counts framing twice", .plan = plan_doubled},
    {.what = "gz_plan counts framing for a demand of 0 too", .plan = plan_idle_too},
    {.what = "gz_plan counts framing once for each pair of ends", .plan = plan_once_a_pair},
    {.what = "gz_plan counts framing once for each direction", .plan = plan_once_a_direction},
    {.what = "gz_plan counts framing on the way up only", .plan = plan_up_only},
    {.what = "gz_plan prices framing", .plan = plan_priced},
    {.what = "gz_plan chooses as if framing were priced", .plan = plan_chooses_priced},
    {.what = "gz_check and gz_plan count no framing", .check = check_unframed,
     .plan = plan_unframed},
    {.what = NULL},
};
