/* faults_resplice.c: gz_edit, which takes a cabinet that becomes a joint or was one wrongly on
 * purpose. */
#include <string.h>

#include "faults.h"
#include "held.h"
#include "input.h"
#include "joints.h"
#include "layout.h"
#include "spliced.h"

enum { CAPACITY = 1 };

/* The cabinet that is edited. */
static size_t edited;

static int but_edited(const uint8_t *sheet, size_t cabinet)
{
    return is_joint(sheet, cabinet) && cabinet != edited;
}

static int or_edited(const uint8_t *sheet, size_t cabinet)
{
    return is_joint(sheet, cabinet) || cabinet == edited;
}

/* True if the sheet is accepted and has the cabinet. */
static int is_there(const struct edit *call)
{
    struct counts counts = counts_of(call->plan.sheet);

    return counts.number == 0 && call->cabinet < counts.s;
}

/* True if the cabinet edited is a joint. */
static int is_on_joint(const struct edit *call)
{
    return is_there(call) && is_joint(call->plan.sheet.bytes, call->cabinet);
}

static void edit_with(struct edit *call, splices *splices)
{
    edited = call->cabinet;
    call->plan.sheet = spliced(call->plan.sheet, splices);
    real_edit(call);
}

static void edit_makes_none(struct edit *call)
{
    if (is_on_joint(call))
        edit_with(call, but_edited);
    else
        real_edit(call);
}

/* True if the tables lent tell that no set but the empty one could be placed on the cabinet. */
static int was_joint(const struct edit *call)
{
    const struct plan *plan = &call->plan;
    size_t r = counts_of(plan->sheet).r;
    size_t at = call->cabinet << r;
    size_t set;

    if (plan->costs_len < counts_of(plan->sheet).entries
        || has_child(plan->sheet.bytes, call->cabinet))
        return 0;
    for (set = 1; set < (size_t)1 << r; set++)
        if (plan->costs[at + set] != NO_WAY)
            return 0;
    return r > 0;
}

static void edit_unmakes_none(struct edit *call)
{
    if (is_there(call) && was_joint(call))
        edit_with(call, or_edited);
    else
        real_edit(call);
}

static void edit_leaves_row(struct edit *call)
{
    const struct held *held = hold(&call->plan);

    real_edit(call);
    if ((call->plan.number == 0 || call->plan.number == 12) && is_on_joint(call))
        put_back_costs(&call->plan, held, call->cabinet);
}

/* Edits as if another output were lent, and gives this refusal in place of a plan if the cabinet is
 * a joint. */
static void edit_refusing(struct edit *call, uint64_t number, uint64_t group)
{
    uint16_t output[MOST_PLACES];
    uint16_t *lent = call->plan.output;

    call->plan.output = output;
    real_edit(call);
    call->plan.output = lent;
    if (call->plan.number != 0)
        return;
    if (!is_on_joint(call)) {
        memcpy(lent, output, counts_of(call->plan.sheet).r * sizeof *output);
        return;
    }
    call->plan.number = number;
    call->plan.answer[0] = group;
    call->plan.answer[1] = 0;
    if (number != 12)
        call->plan.answer[2] = 0;
}

static void edit_closes(struct edit *call)
{
    edit_refusing(call, 12, 3);
}

static void edit_suspects(struct edit *call)
{
    edit_refusing(call, 23, 4);
}

/* A joint is no cabinet for an edit. */
static void edit_outside(struct edit *call)
{
    if (is_on_joint(call))
        call->cabinet = counts_of(call->plan.sheet).s;
    real_edit(call);
}

/* The plan that the tables lent lead to is checked as if joints held demand 0. */
static void edit_hands_out(struct edit *call)
{
    struct plan *plan = &call->plan;
    const struct held *held;
    uint16_t places[MOST_SERVICES] = {0};
    uint64_t answer[2];
    struct check check = {plan->sheet, places, 0, answer, 0};
    size_t all;

    real_edit(call);
    if (plan->number != 23)
        return;
    held = hold(plan);
    all = ((size_t)1 << held->counts.r) - 1;
    follow_choices(&held->tables, plan->sheet.bytes, 0, all, places);
    check.plan_len = held->counts.r;
    check.sheet = spliced(plan->sheet, no_joint);
    real_check(&check);
    if (check.number == 0 && answer[1] == held->tables.costs[all]) {
        memcpy(plan->output, places, held->counts.r * sizeof *places);
        plan->number = 0;
        plan->answer[0] = 0;
        plan->answer[1] = answer[1];
        plan->answer[2] = splits_of(plan, held->counts);
    }
}

const struct fault resplice_faults[] = {
    {.what = "gz_edit makes no joint", .edit = edit_makes_none},
    {.what = "gz_edit leaves a joint a joint that gets room", .edit = edit_unmakes_none},
    {.what = "gz_edit leaves the costs of a cabinet made a joint", .edit = edit_leaves_row},
    {.what = "gz_edit answers 12 for an edit of a joint", .edit = edit_closes},
    {.what = "gz_edit answers 23 for an edit of a joint", .edit = edit_suspects},
    {.what = "gz_edit answers 14 for an edit of a joint", .edit = edit_outside},
    {.what = "gz_edit hands out a plan with demand 0 on a joint", .edit = edit_hands_out},
    {.what = NULL},
};
