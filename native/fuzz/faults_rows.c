/* faults_rows.c: gz_edit with wrong rows of the tables, on purpose. */
#include <string.h>

#include "faults.h"
#include "held.h"
#include "layout.h"
#include "tables.h"

static int was_taken(const struct edit *call)
{
    return call->plan.number == 0 || call->plan.number == 12;
}

/* The first child of a cabinet; 0 if it has none. */
static size_t child_of(const struct plan *plan, size_t cabinet)
{
    size_t c;

    for (c = cabinet + 1; c < counts_of(plan->sheet).s; c++)
        if (field_at(plan->sheet.bytes, CABINETS, c, 0) == cabinet)
            return c;
    return 0;
}

static void edit_own_costs(struct edit *call)
{
    const struct held *held = hold(&call->plan);

    real_edit(call);
    if (was_taken(call))
        put_back_costs(&call->plan, held, call->cabinet);
}

static void edit_root_costs(struct edit *call)
{
    const struct held *held = hold(&call->plan);

    real_edit(call);
    if (was_taken(call))
        put_back_costs(&call->plan, held, 0);
}

/* The root's entry for all services is the new one. */
static void edit_most_root_costs(struct edit *call)
{
    const struct held *held = hold(&call->plan);

    real_edit(call);
    if (was_taken(call))
        memcpy(call->plan.costs, held->tables.costs,
               (((size_t)1 << held->counts.r) - 1) * sizeof *call->plan.costs);
}

static void edit_own_choices(struct edit *call)
{
    const struct held *held = hold(&call->plan);

    real_edit(call);
    if (was_taken(call))
        put_back_choices(&call->plan, held, call->cabinet);
}

static void edit_child_choices(struct edit *call)
{
    const struct held *held = hold(&call->plan);

    real_edit(call);
    if (was_taken(call) && child_of(&call->plan, call->cabinet) > 0)
        put_back_choices(&call->plan, held, child_of(&call->plan, call->cabinet));
}

/* Tells the count that the old ones sum up to. */
static void edit_old_counts(struct edit *call)
{
    const struct held *held = hold(&call->plan);
    size_t c;

    real_edit(call);
    if (!was_taken(call))
        return;
    for (c = 1; c < held->counts.s; c++)
        call->plan.choices[c << held->counts.r] = held->tables.choices[c << held->counts.r];
    call->plan.answer[2] = splits_of(&call->plan, held->counts);
}

/* True if the edit would be taken, as far as the sheet and what is lent decide. */
static int is_fine(const struct edit *call)
{
    struct counts counts = counts_of(call->plan.sheet);

    return counts.number == 0 && call->cabinet < counts.s && call->plan.output_len >= counts.r
           && call->plan.costs_len >= counts.entries && call->plan.choices_len >= counts.entries;
}

static void edit_all_rows(struct edit *call)
{
    if (is_fine(call))
        real_keep(&call->plan);
    else
        real_edit(call);
}

/* Right for kept tables. */
static void edit_row_below(struct edit *call)
{
    size_t child = is_fine(call) ? child_of(&call->plan, call->cabinet) : 0;

    real_edit(call);
    if (child > 0)
        call->plan.costs[child << counts_of(call->plan.sheet).r] = 0;
}

/* Right for kept tables. */
static void edit_root_choices(struct edit *call)
{
    real_edit(call);
    if (was_taken(call))
        memset(call->plan.choices, 0,
               sizeof *call->plan.choices << counts_of(call->plan.sheet).r);
}

/* The last cabinet, if its parent is not on the way from the cabinet to the root. */
static void edit_choices_beside(struct edit *call)
{
    struct counts counts = counts_of(call->plan.sheet);
    const uint8_t *sheet = call->plan.sheet.bytes;

    real_edit(call);
    if (was_taken(call) && counts.s > 1
        && !is_under(sheet, call->cabinet, field_at(sheet, CABINETS, counts.s - 1, 0)))
        call->plan.choices[counts.entries - 1] = 0;
}

static void edit_behind(struct edit *call)
{
    size_t entries = counts_of(call->plan.sheet).entries;

    real_edit(call);
    if (was_taken(call) && call->plan.costs_len > entries)
        call->plan.costs[entries] ^= 1;
}

static void edit_past_choices(struct edit *call)
{
    real_edit(call);
    if (was_taken(call))
        call->plan.choices[call->plan.choices_len] = 0;
}

static void edit_before_costs(struct edit *call)
{
    seen = (unsigned)*(call->plan.costs - 1);
    real_edit(call);
}

/* Touches an entry of each table with this number. */
static void touch_with(struct edit *call, uint64_t number)
{
    real_edit(call);
    if (call->plan.number != number)
        return;
    if (call->plan.costs_len > 0)
        call->plan.costs[0] ^= 1;
    if (call->plan.choices_len > 0)
        call->plan.choices[0] ^= 1;
}

static void edit_touches_outside(struct edit *call)
{
    touch_with(call, 14);
}

static void edit_touches_output(struct edit *call)
{
    touch_with(call, 10);
}

static void edit_touches_tables(struct edit *call)
{
    touch_with(call, 11);
}

static void edit_touches_sheet(struct edit *call)
{
    touch_with(call, 6);
}

static void clear_with(struct edit *call, uint64_t number)
{
    real_edit(call);
    if (call->plan.number == number)
        clear_tables(&call->plan);
}

static void edit_clears_refused(struct edit *call)
{
    clear_with(call, 23);
}

static void edit_clears_none(struct edit *call)
{
    clear_with(call, 12);
}

static void edit_clears(struct edit *call)
{
    clear_with(call, 0);
}

static void edit_leaves_all(struct edit *call)
{
    const struct held *held = hold(&call->plan);
    size_t c;

    real_edit(call);
    for (c = 0; c < held->counts.s && call->plan.number == 0; c++) {
        put_back_costs(&call->plan, held, c);
        put_back_choices(&call->plan, held, c);
    }
}

/* Edits the parent: what is above the cabinet is made again, but not the cabinet's own row. */
static void edit_parent_only(struct edit *call)
{
    if (is_fine(call) && call->cabinet > 0)
        call->cabinet = field_at(call->plan.sheet.bytes, CABINETS, call->cabinet, 0);
    real_edit(call);
}

/* Edits the root in place of any cabinet. */
static void edit_root_alone(struct edit *call)
{
    if (is_fine(call))
        call->cabinet = 0;
    real_edit(call);
}

const struct fault rows_faults[] = {
    {.what = "gz_edit leaves the cabinet's costs", .edit = edit_own_costs},
    {.what = "gz_edit leaves the root's costs", .edit = edit_root_costs},
    {.what = "gz_edit leaves the root's costs but one", .edit = edit_most_root_costs},
    {.what = "gz_edit leaves the cabinet's choices", .edit = edit_own_choices},
    {.what = "gz_edit leaves the choices of a child", .edit = edit_child_choices},
    {.what = "gz_edit leaves the splits of each join", .edit = edit_old_counts},
    {.what = "gz_edit makes all rows again", .edit = edit_all_rows},
    {.what = "gz_edit writes the costs of a child", .edit = edit_row_below},
    {.what = "gz_edit clears the root's choices", .edit = edit_root_choices},
    {.what = "gz_edit writes choices beside the way up", .edit = edit_choices_beside},
    {.what = "gz_edit writes an entry past those needed", .edit = edit_behind},
    {.what = "gz_edit writes the entry after the choices", .edit = edit_past_choices},
    {.what = "gz_edit reads the entry before the costs", .edit = edit_before_costs},
    {.what = "gz_edit touches the tables with 14", .edit = edit_touches_outside},
    {.what = "gz_edit touches the tables with 10", .edit = edit_touches_output},
    {.what = "gz_edit touches the tables with 11", .edit = edit_touches_tables},
    {.what = "gz_edit touches the tables with 6", .edit = edit_touches_sheet},
    {.what = "gz_edit clears the tables with 23", .edit = edit_clears_refused},
    {.what = "gz_edit clears the tables with 12", .edit = edit_clears_none},
    {.what = "gz_edit clears the tables", .edit = edit_clears},
    {.what = "gz_edit leaves the tables", .edit = edit_leaves_all},
    {.what = "gz_edit makes the parent's row again", .edit = edit_parent_only},
    {.what = "gz_edit makes the root's row again alone", .edit = edit_root_alone},
    {.what = NULL},
};
