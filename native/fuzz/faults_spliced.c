/* faults_spliced.c: the calls that plan, which take joints wrongly on purpose, and kept tables with
 * wrong rows for joints. */
#include "faults.h"
#include "input.h"
#include "joints.h"
#include "layout.h"
#include "lent.h"
#include "spliced.h"
#include "tables.h"

enum { UP_CAPACITY = 3, DOWN_CAPACITY = 5 };

static int was_taken(const struct plan *plan)
{
    return plan->number == 0 || plan->number == 12;
}

/* The sheet with these joints, if it is accepted. */
static struct sheet splice_sheet(struct sheet sheet, splices *splices)
{
    return counts_of(sheet).number == 0 ? spliced(sheet, splices) : sheet;
}

static struct sheet splice_none(struct sheet sheet)
{
    return splice_sheet(sheet, no_joint);
}

static struct sheet splice_root(struct sheet sheet)
{
    return splice_sheet(sheet, only_root);
}

static struct sheet splice_but_root(struct sheet sheet)
{
    return splice_sheet(sheet, but_root);
}

static struct sheet splice_but_middle(struct sheet sheet)
{
    return splice_sheet(sheet, but_middle);
}

static struct sheet splice_but_leaves(struct sheet sheet)
{
    return splice_sheet(sheet, but_leaves);
}

static struct sheet splice_price_zero(struct sheet sheet)
{
    return splice_sheet(sheet, of_price_zero);
}

static struct sheet splice_capacity_one(struct sheet sheet)
{
    return splice_sheet(sheet, of_capacity_one);
}

static struct sheet splice_under_joint(struct sheet sheet)
{
    return splice_sheet(sheet, under_joint);
}

/* Nothing of demand above 0 runs along a link at a joint. */
static struct sheet splice_stops(struct sheet sheet)
{
    struct sheet copy = copy_sheet(sheet);
    size_t s = counts_of(sheet).s;
    size_t c;

    for (c = 1; c < s; c++)
        if (is_joint(sheet.bytes, c)
            || is_joint(sheet.bytes, field_at(sheet.bytes, CABINETS, c, 0))) {
            put_word(other_sheet, place_of(sheet.bytes, CABINETS, c, UP_CAPACITY), 0);
            put_word(other_sheet, place_of(sheet.bytes, CABINETS, c, DOWN_CAPACITY), 0);
        }
    return copy;
}

static void plan_no_joint(struct plan *call)
{
    call->sheet = splice_none(call->sheet);
    real_plan(call);
}

static void keep_no_joint(struct plan *call)
{
    call->sheet = splice_none(call->sheet);
    real_keep(call);
}

static void edit_no_joint(struct edit *call)
{
    call->plan.sheet = splice_none(call->plan.sheet);
    real_edit(call);
}

static void span_no_joint(struct spanned *call)
{
    call->edit.plan.sheet = splice_none(call->edit.plan.sheet);
    call->real(call);
}

/* Answers 12 without a service, if there is no cabinet for one. */
static void refuse_joints(struct plan *call)
{
    struct counts counts = counts_of(call->sheet);

    if (call->number == 0 && counts.r == 0 && count_joints(call->sheet.bytes) == counts.s) {
        call->number = 12;
        call->answer[0] = 3;
    }
}

static void plan_refuses_joints(struct plan *call)
{
    real_plan(call);
    refuse_joints(call);
}

static void keep_refuses_joints(struct plan *call)
{
    real_keep(call);
    refuse_joints(call);
}

/* True if service 0 could stay on the root before cabinet 1, but for a joint. */
static int has_more_splits(const struct plan *call)
{
    struct counts counts = counts_of(call->sheet);

    return was_taken(call) && counts.s > 1 && counts.r > 0 && is_joint(call->sheet.bytes, 0)
           && field_at(call->sheet.bytes, SERVICES, 0, 0) == 0;
}

/* Counts the splits in which service 0 alone stays on a joint at the root, and keeps them in the
 * choices, if there are any. */
static void count_more(struct plan *call, uint16_t *choices)
{
    size_t r = counts_of(call->sheet).r;

    if (!has_more_splits(call))
        return;
    call->answer[2] += (uint64_t)1 << (r - 1);
    if (choices != NULL)
        choices[(size_t)1 << r] += (uint16_t)(1u << (r - 1));
}

static void plan_more_splits(struct plan *call)
{
    real_plan(call);
    count_more(call, NULL);
}

static void keep_more_splits(struct plan *call)
{
    real_keep(call);
    count_more(call, call->choices);
}

static void edit_more_splits(struct edit *call)
{
    real_edit(call);
    count_more(&call->plan, call->plan.choices);
}

static void plan_span_more_splits(struct spanned *call)
{
    call->real(call);
    count_more(&call->edit.plan, NULL);
}

static void span_more_splits(struct spanned *call)
{
    call->real(call);
    count_more(&call->edit.plan, call->edit.plan.choices + call->first);
}

/* Changes kept costs: the rows of the joints that stand so, for services of these demands. */
static void change_rows(const struct plan *call, enum stand stand,
                        void (*change)(uint64_t *row, size_t set, uint64_t demand))
{
    struct counts counts = counts_of(call->sheet);
    const uint8_t *sheet = call->sheet.bytes;
    size_t c;
    size_t set;
    size_t i;

    for (c = 0; c < counts.s && was_taken(call); c++)
        for (set = 0; set < (size_t)1 << counts.r && is_joint(sheet, c)
                      && stand_of(sheet, c) == stand;
             set++) {
            uint64_t demand = 0;

            for (i = 0; i < counts.r; i++)
                demand += set >> i & 1 ? field_at(sheet, SERVICES, i, 0) : 0;
            change(call->costs + (c << counts.r), set, demand);
        }
}

static void place_idle(uint64_t *row, size_t set, uint64_t demand)
{
    if (demand == 0)
        row[set] = 0;
}

static void refuse_empty(uint64_t *row, size_t set, uint64_t demand)
{
    (void)demand;
    if (set == 0)
        row[set] = NO_WAY;
}

static void refuse_others(uint64_t *row, size_t set, uint64_t demand)
{
    (void)demand;
    if (set != 0)
        row[set] = NO_WAY;
}

static void keep_idle_at_leaf(struct plan *call)
{
    real_keep(call);
    change_rows(call, AT_LEAF, place_idle);
}

static void keep_idle_in_middle(struct plan *call)
{
    real_keep(call);
    change_rows(call, IN_MIDDLE, place_idle);
}

static void keep_no_empty_set(struct plan *call)
{
    real_keep(call);
    change_rows(call, AT_LEAF, refuse_empty);
}

static void keep_none_below(struct plan *call)
{
    real_keep(call);
    change_rows(call, IN_MIDDLE, refuse_others);
}

/* Tells that service 0 stays if it is alone, on the first child of each joint. */
static void keep_stays(struct plan *call)
{
    struct counts counts = counts_of(call->sheet);
    size_t c;

    real_keep(call);
    for (c = 1; c < counts.s && was_taken(call) && counts.r > 1; c++) {
        size_t parent = field_at(call->sheet.bytes, CABINETS, c, 0);

        if (is_joint(call->sheet.bytes, parent) && call->costs[(parent << counts.r) + 1] != NO_WAY)
            call->choices[(c << counts.r) + 1] = 1;
    }
}

const struct fault spliced_faults[] = {
    {.what = "the calls that plan take demand 0 on a joint", .planned = splice_none},
    {.what = "the calls that plan take the root alone for a joint", .planned = splice_root},
    {.what = "the calls that plan take demand 0 on a joint that is the root",
     .planned = splice_but_root},
    {.what = "the calls that plan take demand 0 on a joint in the middle",
     .planned = splice_but_middle},
    {.what = "the calls that plan take demand 0 on a joint at a leaf",
     .planned = splice_but_leaves},
    {.what = "the calls that plan take price 0 for a joint", .planned = splice_price_zero},
    {.what = "the calls that plan take capacity 1 for a joint too",
     .planned = splice_capacity_one},
    {.what = "the calls that plan take cabinets under a joint for joints too",
     .planned = splice_under_joint},
    {.what = "the calls that plan let no stream through a joint", .planned = splice_stops},
    {.what = "gz_plan takes demand 0 on a joint", .plan = plan_no_joint},
    {.what = "gz_keep takes demand 0 on a joint", .keep = keep_no_joint},
    {.what = "gz_edit takes demand 0 on a joint", .edit = edit_no_joint},
    IN_EACH_SPAN("takes demand 0 on a joint", span_no_joint),
    {.what = "gz_plan answers 12 for joints without a service", .plan = plan_refuses_joints},
    {.what = "gz_plan and gz_keep answer 12 for joints without a service",
     .plan = plan_refuses_joints,
     .keep = keep_refuses_joints},
    {.what = "the calls that plan count splits that leave demand 0 on a joint",
     .plan = plan_more_splits,
     .keep = keep_more_splits,
     .edit = edit_more_splits,
     .plan_span = plan_span_more_splits,
     .keep_span = span_more_splits,
     .edit_span = span_more_splits},
    {.what = "gz_keep keeps demand 0 on a joint at a leaf", .keep = keep_idle_at_leaf},
    {.what = "gz_keep keeps demand 0 on a joint in the middle", .keep = keep_idle_in_middle},
    {.what = "gz_keep keeps no way for the empty set on a joint", .keep = keep_no_empty_set},
    {.what = "gz_keep keeps no way for a set under a joint", .keep = keep_none_below},
    {.what = "gz_keep keeps a service that stays on a joint", .keep = keep_stays},
    {.what = NULL},
};
