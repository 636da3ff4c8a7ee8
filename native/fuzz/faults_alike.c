/* faults_alike.c: gz_keep and gz_edit, wrong on purpose so that they agree with each other, or so
 * that no kept tables show it. */
#include "faults.h"
#include "held.h"
#include "layout.h"
#include "tables.h"

/* True if the edit made the row of the cabinet's choices again. */
static int is_joined(const struct edit *call, size_t cabinet)
{
    const uint8_t *sheet = call->plan.sheet.bytes;

    return is_under(sheet, call->cabinet, field_at(sheet, CABINETS, cabinet, 0));
}

static int was_taken(const struct plan *plan)
{
    return plan->number == 0 || plan->number == 12;
}

/* Tells that all stays where there is no way before a later child is joined: a choice of 0 tells
 * that all goes or that there is no way, and here it can't go. No plan needs these choices. */
static void mark_unplaced(const struct plan *plan, struct counts counts, size_t cabinet)
{
    size_t parent = field_at(plan->sheet.bytes, CABINETS, cabinet, 0);
    size_t set;

    for (set = 1; set < (size_t)1 << counts.r; set++) {
        size_t at = (cabinet << counts.r) + set;

        if (plan->choices[at] == 0 && plan->costs[at] == NO_WAY
            && plan->costs[(parent << counts.r) + set] != NO_WAY)
            plan->choices[at] = (uint16_t)set;
    }
}

static void keep_repeat(struct plan *call)
{
    struct counts counts = counts_of(call->sheet);
    size_t c;

    real_keep(call);
    for (c = 1; c < counts.s && was_taken(call) && has_repeat(call->sheet); c++)
        mark_unplaced(call, counts, c);
}

static void edit_repeat(struct edit *call)
{
    struct counts counts = counts_of(call->plan.sheet);
    size_t c;

    real_edit(call);
    for (c = 1; c < counts.s && was_taken(&call->plan) && has_repeat(call->plan.sheet); c++)
        if (is_joined(call, c))
            mark_unplaced(&call->plan, counts, c);
}

/* For the last cabinet, which is the last to be joined to its parent. */
static void mark_last(const struct plan *plan, struct counts counts)
{
    size_t parent = field_at(plan->sheet.bytes, CABINETS, counts.s - 1, 0);
    size_t set;

    for (set = 1; set < (size_t)1 << counts.r; set++)
        if (plan->costs[(parent << counts.r) + set] == NO_WAY)
            plan->choices[((counts.s - 1) << counts.r) + set] = (uint16_t)set;
}

static void keep_no_way(struct plan *call)
{
    struct counts counts = counts_of(call->sheet);

    real_keep(call);
    if (was_taken(call) && counts.s > 1)
        mark_last(call, counts);
}

static void edit_no_way(struct edit *call)
{
    struct counts counts = counts_of(call->plan.sheet);

    real_edit(call);
    if (was_taken(&call->plan) && counts.s > 1 && is_joined(call, counts.s - 1))
        mark_last(&call->plan, counts);
}

/* Tells service 0 as dearer than it is, if the root has no room for it. */
static void make_dearer(const struct plan *plan)
{
    const uint8_t *sheet = plan->sheet.bytes;

    if (was_taken(plan) && counts_of(plan->sheet).r > 1 && plan->costs[1] < MOST_COST
        && field_at(sheet, SERVICES, 0, 0) > field_at(sheet, CABINETS, 0, 1))
        plan->costs[1]++;
}

static void keep_dearer(struct plan *call)
{
    real_keep(call);
    make_dearer(call);
}

static void edit_dearer(struct edit *call)
{
    real_edit(call);
    make_dearer(&call->plan);
}

static void keep_fewer_bits(struct plan *call)
{
    struct counts counts = counts_of(call->sheet);
    size_t c;

    real_keep(call);
    for (c = 1; c < counts.s && was_taken(call); c++)
        call->choices[c << counts.r] %= 32768;
}

static void edit_fewer_bits(struct edit *call)
{
    struct plan *plan = &call->plan;
    struct counts counts = counts_of(plan->sheet);
    size_t c;

    real_edit(call);
    if (!was_taken(plan))
        return;
    for (c = 1; c < counts.s; c++)
        if (is_joined(call, c))
            plan->choices[c << counts.r] %= 32768;
    plan->answer[2] = splits_of(plan, counts);
}

/* True if the last row of the costs holds a figure that no kept table holds. */
static int is_odd(const struct plan *plan, struct counts counts)
{
    size_t i;

    for (i = (counts.s - 1) << counts.r; i < counts.entries; i++)
        if (plan->costs[i] > NO_WAY)
            return 1;
    return 0;
}

/* In an entry that no plan needs: the last child of the root, and a set that is not all. */
static void edit_entry_dirty(struct edit *call)
{
    struct counts counts = counts_of(call->plan.sheet);
    unsigned held = call->plan.output_len > 0 ? call->plan.output[0] : 0;

    real_edit(call);
    if (was_taken(&call->plan) && counts.s > 1 && counts.r > 1 && is_odd(&call->plan, counts)
        && field_at(call->plan.sheet.bytes, CABINETS, counts.s - 1, 0) == 0)
        call->plan.choices[((counts.s - 1) << counts.r) + 1] = held % 2;
}

const struct fault alike_faults[] = {
    {.what = "gz_keep and gz_edit keep other choices if a pair stands twice",
     .keep = keep_repeat,
     .edit = edit_repeat},
    {.what = "gz_keep and gz_edit keep a choice where there is no way",
     .keep = keep_no_way,
     .edit = edit_no_way},
    {.what = "gz_keep and gz_edit keep a set dearer than they place it",
     .keep = keep_dearer,
     .edit = edit_dearer},
    {.what = "gz_keep and gz_edit keep the splits in 15 bits",
     .keep = keep_fewer_bits,
     .edit = edit_fewer_bits},
    {.what = "gz_edit writes an entry that depends on the output before",
     .edit = edit_entry_dirty},
    {.what = NULL},
};
