/* faults_edit.c: gz_edit with wrong answers and in an output that it must not touch, on purpose. */
#include <string.h>

#include "faults.h"
#include "held.h"
#include "layout.h"
#include "tables.h"

static void answer_with(struct plan *plan, uint64_t number, uint64_t group, uint64_t cost,
                        uint64_t count)
{
    plan->number = number;
    plan->answer[0] = group;
    plan->answer[1] = cost;
    plan->answer[2] = count;
}

/* Answers 14 in place of this number, if the cabinet is not there. */
static void refuse_before(struct edit *call, uint64_t number)
{
    real_edit(call);
    if (call->plan.number == number && call->cabinet >= 200)
        answer_with(&call->plan, 14, 4, 0, 0);
}

static void edit_before_tables(struct edit *call)
{
    refuse_before(call, 11);
}

static void edit_before_output(struct edit *call)
{
    refuse_before(call, 10);
}

static void edit_before_sheet(struct edit *call)
{
    refuse_before(call, 6);
}

static void edit_needs_more(struct edit *call)
{
    struct counts counts = counts_of(call->plan.sheet);

    if (counts.r > 0 && call->plan.output_len == counts.r)
        call->plan.output_len--;
    real_edit(call);
}

static void edit_choices_short(struct edit *call)
{
    static uint16_t choices[MOST_ENTRIES];
    struct plan *plan = &call->plan;

    real_edit(call);
    if (plan->number == 11 && plan->costs_len >= counts_of(plan->sheet).entries) {
        plan->choices = choices;
        plan->choices_len = MOST_ENTRIES;
        real_edit(call);
    }
}

static void edit_ignores_pairs(struct edit *call)
{
    if (counts_of(call->plan.sheet).pairs > 0)
        call->plan.sheet = copy_unbarred(call->plan.sheet);
    real_edit(call);
}

/* As if every link had room for all that there can be. */
static void edit_ignores_links(struct edit *call)
{
    if (counts_of(call->plan.sheet).number == 0) {
        call->plan.sheet = copy_sheet(call->plan.sheet);
        set_cabinets(call->plan.sheet, 1, 3, 10000);
        set_cabinets(call->plan.sheet, 1, 5, 10000);
    }
    real_edit(call);
}

static void edit_takes_s(struct edit *call)
{
    if (call->cabinet > 0 && call->cabinet == counts_of(call->plan.sheet).s)
        call->cabinet--;
    real_edit(call);
}

static void edit_cuts_number(struct edit *call)
{
    call->cabinet %= 65536;
    real_edit(call);
}

/* The cost of all services that the tables tell. */
static uint64_t root_cost(const struct plan *plan)
{
    return plan->costs[((size_t)1 << counts_of(plan->sheet).r) - 1];
}

static void edit_none_first(struct edit *call)
{
    real_edit(call);
    if (call->plan.number == 14 && root_cost(&call->plan) > MOST_COST)
        answer_with(&call->plan, 12, 3, 0, splits_of(&call->plan, counts_of(call->plan.sheet)));
}

/* The plan that the choices lead to. */
static void follow(struct plan *plan, uint16_t places[MOST_SERVICES])
{
    const struct held *held = hold(plan);

    memset(places, 0, MOST_SERVICES * sizeof *places);
    follow_choices(&held->tables, plan->sheet.bytes, 0, ((size_t)1 << held->counts.r) - 1, places);
}

static void edit_writes_refused(struct edit *call)
{
    real_edit(call);
    if (call->plan.number == 23) {
        uint16_t places[MOST_SERVICES];

        follow(&call->plan, places);
        memcpy(call->plan.output, places, counts_of(call->plan.sheet).r * sizeof *places);
    }
}

static void edit_writes_none(struct edit *call)
{
    real_edit(call);
    if (call->plan.number == 12 && call->plan.output_len > 0)
        call->plan.output[0] = 0;
}

static void edit_count_refused(struct edit *call)
{
    real_edit(call);
    if (call->plan.number == 23)
        call->plan.answer[2] = splits_of(&call->plan, counts_of(call->plan.sheet));
}

static void edit_cost_refused(struct edit *call)
{
    real_edit(call);
    if (call->plan.number == 23)
        call->plan.answer[1] = root_cost(&call->plan);
}

static void edit_group(struct edit *call)
{
    real_edit(call);
    if (call->plan.number == 23)
        call->plan.answer[0] = 3;
}

static void edit_number(struct edit *call)
{
    real_edit(call);
    if (call->plan.number == 23)
        answer_with(&call->plan, 12, 3, 0, splits_of(&call->plan, counts_of(call->plan.sheet)));
}

/* Writes the plan that the choices lead to, at this cost. */
static void hand_out(struct plan *plan, uint64_t cost)
{
    struct counts counts = counts_of(plan->sheet);
    uint16_t places[MOST_SERVICES];

    follow(plan, places);
    memcpy(plan->output, places, counts.r * sizeof *places);
    answer_with(plan, 0, 0, cost, splits_of(plan, counts));
}

static void edit_unchecked(struct edit *call)
{
    real_edit(call);
    if (call->plan.number == 23)
        hand_out(&call->plan, root_cost(&call->plan));
}

/* True if the plan that the choices lead to is valid; tells its cost. */
static int is_valid(struct plan *plan, uint64_t *cost)
{
    uint16_t places[MOST_SERVICES];
    uint64_t answer[2];
    struct check check = {plan->sheet, places, counts_of(plan->sheet).r, answer, 0};

    follow(plan, places);
    real_check(&check);
    *cost = answer[1];
    return check.number == 0;
}

static void edit_cost_unchecked(struct edit *call)
{
    uint64_t cost;

    real_edit(call);
    if (call->plan.number == 23 && is_valid(&call->plan, &cost))
        hand_out(&call->plan, root_cost(&call->plan));
}

static void edit_cost_of_check(struct edit *call)
{
    uint64_t cost;

    real_edit(call);
    if (call->plan.number == 23 && is_valid(&call->plan, &cost))
        hand_out(&call->plan, cost);
}

/* Edits as if another output were lent, and answers 23 for a plan if the tables are suspected. */
static void edit_suspecting(struct edit *call, int suspected)
{
    uint16_t output[MOST_PLACES];
    uint16_t *lent = call->plan.output;

    call->plan.output = output;
    real_edit(call);
    call->plan.output = lent;
    if (call->plan.number == 0 && suspected)
        answer_with(&call->plan, 23, 4, 0, 0);
    if (call->plan.number == 0)
        memcpy(lent, output, counts_of(call->plan.sheet).r * sizeof *output);
}

/* True if the tables lent are long enough. */
static int is_long_enough(const struct plan *plan)
{
    struct counts counts = counts_of(plan->sheet);

    return counts.number == 0 && plan->costs_len >= counts.entries
           && plan->choices_len >= counts.entries;
}

static void edit_suspects_none(struct edit *call)
{
    edit_suspecting(call, is_long_enough(&call->plan) && root_cost(&call->plan) > MOST_COST);
}

static void edit_suspects_empty(struct edit *call)
{
    size_t entries = counts_of(call->plan.sheet).entries;

    edit_suspecting(call, is_long_enough(&call->plan) && call->plan.choices[entries - 1] == 65535);
}

static void edit_old_count(struct edit *call)
{
    uint64_t count = 0;

    if (is_long_enough(&call->plan))
        count = splits_of(&call->plan, counts_of(call->plan.sheet));
    real_edit(call);
    if (call->plan.number == 0)
        call->plan.answer[2] = count;
}

/* Tells the splits of the joins that were made again. */
static void edit_new_count(struct edit *call)
{
    struct plan *plan = &call->plan;
    struct counts counts = counts_of(plan->sheet);
    uint64_t sum = 0;
    size_t c;

    real_edit(call);
    if (plan->number != 0 && plan->number != 12)
        return;
    for (c = 1; c < counts.s; c++)
        if (is_under(plan->sheet.bytes, call->cabinet, field_at(plan->sheet.bytes, CABINETS, c, 0)))
            sum += plan->choices[c << counts.r];
    plan->answer[2] = sum;
}

static void edit_count_none(struct edit *call)
{
    real_edit(call);
    if (call->plan.number == 12)
        call->plan.answer[2] = 0;
}

static void edit_old_cost(struct edit *call)
{
    uint64_t cost = is_long_enough(&call->plan) ? root_cost(&call->plan) : 0;

    real_edit(call);
    if (call->plan.number == 0 && cost <= MOST_COST)
        call->plan.answer[1] = cost;
}

static void edit_place_r(struct edit *call)
{
    size_t r = counts_of(call->plan.sheet).r;

    real_edit(call);
    if (call->plan.number == 0 && call->plan.output_len > r)
        call->plan.output[r] ^= 1;
}

static void edit_past_output(struct edit *call)
{
    real_edit(call);
    if (call->plan.number == 0)
        call->plan.output[call->plan.output_len] = 0;
}

static void edit_unwritten(struct edit *call)
{
    uint64_t held = call->plan.answer[2];

    real_edit(call);
    if (call->plan.number == 14)
        call->plan.answer[2] = held;
}

static void edit_writes_sheet(struct edit *call)
{
    real_edit(call);
    if (call->plan.number == 0)
        ((uint8_t *)call->plan.sheet.bytes)[0] ^= 1;
}

const struct fault edit_faults[] = {
    {.what = "gz_edit answers 14 before 11", .edit = edit_before_tables},
    {.what = "gz_edit answers 14 before 10", .edit = edit_before_output},
    {.what = "gz_edit answers 14 before 6", .edit = edit_before_sheet},
    {.what = "gz_edit answers 10 for an output of r places", .edit = edit_needs_more},
    {.what = "gz_edit takes short choices", .edit = edit_choices_short},
    {.what = "gz_edit takes no notice of barred pairs", .edit = edit_ignores_pairs},
    {.what = "gz_edit takes no notice of the links' capacities", .edit = edit_ignores_links},
    {.what = "gz_edit takes cabinet s", .edit = edit_takes_s},
    {.what = "gz_edit cuts the cabinet's number to 16 bits", .edit = edit_cuts_number},
    {.what = "gz_edit answers 12 before 14", .edit = edit_none_first},
    {.what = "gz_edit writes the output with 23", .edit = edit_writes_refused},
    {.what = "gz_edit writes the output with 12", .edit = edit_writes_none},
    {.what = "gz_edit tells a count with 23", .edit = edit_count_refused},
    {.what = "gz_edit tells a cost with 23", .edit = edit_cost_refused},
    {.what = "gz_edit tells the road's group with 23", .edit = edit_group},
    {.what = "gz_edit answers 12 for 23", .edit = edit_number},
    {.what = "gz_edit checks no plan", .edit = edit_unchecked},
    {.what = "gz_edit compares no cost", .edit = edit_cost_unchecked},
    {.what = "gz_edit tells the cost of the check", .edit = edit_cost_of_check},
    {.what = "gz_edit answers 23 for tables of a road without a plan", .edit = edit_suspects_none},
    {.what = "gz_edit answers 23 for a plan from odd tables", .edit = edit_suspects_empty},
    {.what = "gz_edit tells the count of before", .edit = edit_old_count},
    {.what = "gz_edit counts the joins made again", .edit = edit_new_count},
    {.what = "gz_edit tells no count with 12", .edit = edit_count_none},
    {.what = "gz_edit tells the cost of before", .edit = edit_old_cost},
    {.what = "gz_edit writes place r of a longer output", .edit = edit_place_r},
    {.what = "gz_edit writes the place after the output", .edit = edit_past_output},
    {.what = "gz_edit leaves the count unwritten with 14", .edit = edit_unwritten},
    {.what = "gz_edit changes the sheet", .edit = edit_writes_sheet},
    {.what = NULL},
};
