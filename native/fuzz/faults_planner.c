/* faults_planner.c: gz_plan and gz_bound, wrong on purpose. */
#include <string.h>

#include "faults.h"
#include "input.h"
#include "joints.h"
#include "layout.h"
#include "lent.h"

static void plan_tables_first(struct plan *call)
{
    struct counts counts = counts_of(call->sheet);

    real_plan(call);
    if (call->number == 10
        && (call->costs_len < counts.entries || call->choices_len < counts.entries))
        call->number = 11;
}

static void plan_needs_more(struct plan *call)
{
    struct counts counts = counts_of(call->sheet);

    if (counts.r > 0 && call->output_len == counts.r)
        call->output_len--;
    real_plan(call);
}

static void plan_choices_short(struct plan *call)
{
    static uint16_t choices[MOST_ENTRIES];

    real_plan(call);
    if (call->number == 11 && call->costs_len >= counts_of(call->sheet).entries) {
        call->choices = choices;
        call->choices_len = MOST_ENTRIES;
        real_plan(call);
    }
}

static void plan_sheet_last(struct plan *call)
{
    real_plan(call);
    if (call->number == 9 && call->output_len == 0) {
        call->number = 10;
        call->answer[0] = 2;
    }
}

static void plan_number(struct plan *call)
{
    real_plan(call);
    if (call->number == 1)
        call->number = 2;
}

static void plan_unknown(struct plan *call)
{
    real_plan(call);
    if (call->number == 12)
        call->number = 17;
}

static void plan_group(struct plan *call)
{
    real_plan(call);
    if (call->number == 11)
        call->answer[0] = 3;
}

static void plan_place_r(struct plan *call)
{
    size_t r = counts_of(call->sheet).r;

    real_plan(call);
    if (call->number == 0 && call->output_len > r)
        call->output[r] = 7;
}

static void plan_past_output(struct plan *call)
{
    real_plan(call);
    if (call->number == 0)
        call->output[call->output_len] = 0;
}

static void plan_before_costs(struct plan *call)
{
    real_plan(call);
    if (call->number == 0)
        *(call->costs - 1) = 0;
}

static void plan_past_choices(struct plan *call)
{
    real_plan(call);
    if (call->number == 12)
        call->choices[call->choices_len] = 0;
}

static void plan_leaves_cost(struct plan *call)
{
    size_t entries = counts_of(call->sheet).entries;

    real_plan(call);
    if (call->number == 0)
        call->costs[entries - 1] = 1;
}

static void plan_leaves_choice(struct plan *call)
{
    real_plan(call);
    if (call->number == 12)
        call->choices[0] = 1;
}

static void plan_clears_more(struct plan *call)
{
    size_t entries = counts_of(call->sheet).entries;

    real_plan(call);
    if (call->number == 0 && call->choices_len > entries)
        call->choices[entries] = 0;
}

static void plan_touches_table(struct plan *call)
{
    real_plan(call);
    if (call->number == 11 && call->costs_len > 0)
        call->costs[0] = 0;
}

static void plan_writes_refused(struct plan *call)
{
    real_plan(call);
    if (call->number == 12 && call->output_len > 0)
        call->output[0] = 0;
}

static void plan_writes_sheet(struct plan *call)
{
    real_plan(call);
    if (call->number == 0)
        ((uint8_t *)call->sheet.bytes)[0] ^= 1;
}

static void plan_cost(struct plan *call)
{
    real_plan(call);
    if (call->number == 0)
        call->answer[1]++;
}

static void plan_cost_refused(struct plan *call)
{
    real_plan(call);
    if (call->number == 12)
        call->answer[1] = 1000000000000001u;
}

static void plan_unwritten(struct plan *call)
{
    uint64_t held = call->answer[2];

    real_plan(call);
    if (call->number == 10)
        call->answer[2] = held;
}

static void plan_count_refused(struct plan *call)
{
    real_plan(call);
    if (call->number == 11)
        call->answer[2] = 1;
}

static void plan_count_high(struct plan *call)
{
    struct counts counts = counts_of(call->sheet);
    uint64_t answer[2];
    struct bound bound = {counts.r, counts.s, answer, 0};

    real_plan(call);
    real_bound(&bound);
    if ((call->number == 0 || call->number == 12) && call->answer[2] == answer[1])
        call->answer[2]++;
}

static void plan_count_dirty(struct plan *call)
{
    uint64_t held = call->costs_len > 0 ? call->costs[0] : 0;

    real_plan(call);
    if (call->number == 0 && call->answer[2] > 0 && held % 2 == 1)
        call->answer[2]--;
}

/* A service of demand 0 may sit anywhere but on a joint where there is no stream. */
static void plan_place_dirty(struct plan *call)
{
    struct counts counts = counts_of(call->sheet);
    uint16_t held = call->output_len > 0 ? call->output[0] : 0;

    real_plan(call);
    if (call->number == 0 && counts.r > 0 && counts.q == 0
        && word_at(call->sheet.bytes, word_at(call->sheet.bytes, 6)) == 0
        && !is_joint(call->sheet.bytes, held % counts.s))
        call->output[0] = (uint16_t)(held % counts.s);
}

/* Plans as if another output were lent, which is given back. */
static void plan_aside(struct plan *call, uint16_t output[MOST_PLACES])
{
    uint16_t *lent = call->output;

    call->output = output;
    real_plan(call);
    call->output = lent;
}

static void plan_none(struct plan *call)
{
    size_t r = counts_of(call->sheet).r;
    uint16_t output[MOST_PLACES];

    plan_aside(call, output);
    if (call->number == 0 && r == 3) {
        call->number = 12;
        call->answer[0] = 3;
        call->answer[1] = 0;
    }
    if (call->number == 0)
        memcpy(call->output, output, r * sizeof *output);
}

/* Writes all services on the last cabinet on which that is valid, cheapest or not. */
static void plan_dearer(struct plan *call)
{
    struct counts counts = counts_of(call->sheet);
    size_t c;

    real_plan(call);
    for (c = 0; c < counts.s && call->number == 0; c++) {
        uint16_t plan[MOST_SERVICES];
        uint64_t answer[2];
        struct check check = {call->sheet, plan, counts.r, answer, 0};
        size_t i;

        for (i = 0; i < counts.r; i++)
            plan[i] = (uint16_t)c;
        real_check(&check);
        if (check.number == 0) {
            memcpy(call->output, plan, counts.r * sizeof *plan);
            call->answer[1] = answer[1];
        }
    }
}

static void plan_writes_none(struct plan *call)
{
    uint16_t output[MOST_PLACES];

    plan_aside(call, output);
}

static void plan_ignores_pairs(struct plan *call)
{
    if (counts_of(call->sheet).pairs > 0)
        call->sheet = copy_unbarred(call->sheet);
    real_plan(call);
}

/* Leaves out the last pair. */
static void plan_fewer_pairs(struct plan *call)
{
    size_t pairs = counts_of(call->sheet).pairs;

    if (pairs > 0) {
        call->sheet = copy_sheet(call->sheet);
        put_word(other_sheet, offset_of(other_sheet, BARRED), (unsigned)pairs - 1);
    }
    real_plan(call);
}

/* Leaves the cabinet of a pair without room. */
static void plan_bars_all(struct plan *call)
{
    struct sheet copy = copy_sheet(call->sheet);
    size_t pairs = counts_of(call->sheet).pairs;
    size_t i;

    for (i = 0; i < pairs; i++) {
        size_t cabinet = field_at(call->sheet.bytes, BARRED, i, 1);
        put_word(other_sheet, place_of(copy.bytes, CABINETS, cabinet, 1), 0);
    }
    call->sheet = copy;
    real_plan(call);
}

static void plan_pairs_last(struct plan *call)
{
    real_plan(call);
    if (call->number == 19 && call->output_len < word_at(call->sheet.bytes, 0)) {
        call->number = 10;
        call->answer[0] = 2;
    }
}

static void plan_touches_refused(struct plan *call)
{
    real_plan(call);
    if (call->number == 18 && call->choices_len > 0)
        call->choices[0] = 7;
}

static void bound_low(struct bound *call)
{
    real_bound(call);
    if (call->services == 10)
        call->answer[1]--;
}

static void bound_limits(struct bound *call)
{
    if (call->cabinets == 201)
        call->cabinets = 200;
    real_bound(call);
}

static void bound_eleven(struct bound *call)
{
    int eleven = call->services == 11;

    if (eleven)
        call->services = 10;
    real_bound(call);
    if (eleven)
        call->answer[1] *= 3;
}

const struct fault planner_faults[] = {
    {.what = "gz_plan answers 11 before 10", .plan = plan_tables_first},
    {.what = "gz_plan answers 10 for an output of r places", .plan = plan_needs_more},
    {.what = "gz_plan takes short choices", .plan = plan_choices_short},
    {.what = "gz_plan answers 10 before 9", .plan = plan_sheet_last},
    {.what = "gz_plan answers 2 for 1", .plan = plan_number},
    {.what = "gz_plan answers 17 for 12", .plan = plan_unknown},
    {.what = "gz_plan tells the road's group with 11", .plan = plan_group},
    {.what = "gz_plan writes place r of a longer output", .plan = plan_place_r},
    {.what = "gz_plan writes the place after the output", .plan = plan_past_output},
    {.what = "gz_plan writes the entry before the costs", .plan = plan_before_costs},
    {.what = "gz_plan writes the entry after the choices", .plan = plan_past_choices},
    {.what = "gz_plan leaves an entry of the costs", .plan = plan_leaves_cost},
    {.what = "gz_plan leaves an entry of the choices with 12", .plan = plan_leaves_choice},
    {.what = "gz_plan clears one entry too many", .plan = plan_clears_more},
    {.what = "gz_plan touches the costs with 11", .plan = plan_touches_table},
    {.what = "gz_plan writes the output with 12", .plan = plan_writes_refused},
    {.what = "gz_plan changes the sheet", .plan = plan_writes_sheet},
    {.what = "gz_plan answers a cost one too high", .plan = plan_cost},
    {.what = "gz_plan tells a cost with 12", .plan = plan_cost_refused},
    {.what = "gz_plan leaves the count unwritten with 10", .plan = plan_unwritten},
    {.what = "gz_plan tells a count with 11", .plan = plan_count_refused},
    {.what = "gz_plan tells a count above the bound", .plan = plan_count_high},
    {.what = "gz_plan tells a count that depends on the costs before", .plan = plan_count_dirty},
    {.what = "gz_plan writes a place that depends on the output before", .plan = plan_place_dirty},
    {.what = "gz_plan answers 12 for roads of three services", .plan = plan_none},
    {.what = "gz_plan finds a dearer plan", .plan = plan_dearer},
    {.what = "gz_plan writes no plan", .plan = plan_writes_none},
    {.what = "gz_plan takes no notice of barred pairs", .plan = plan_ignores_pairs},
    {.what = "gz_plan leaves out the last pair", .plan = plan_fewer_pairs},
    {.what = "gz_plan bars every service from a pair's cabinet", .plan = plan_bars_all},
    {.what = "gz_plan answers 10 before 19", .plan = plan_pairs_last},
    {.what = "gz_plan touches the choices with 18", .plan = plan_touches_refused},
    {.what = "gz_bound answers one too low for 10 services", .bound = bound_low},
    {.what = "gz_bound takes 201 cabinets", .bound = bound_limits},
    {.what = "gz_bound takes 11 services", .bound = bound_eleven},
    {.what = NULL},
};
