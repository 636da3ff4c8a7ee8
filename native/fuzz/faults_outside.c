/* faults_outside.c: calls in spans that read or write other entries than they must, or an output
 * that is not theirs, on purpose. */
#include <string.h>

#include "faults.h"
#include "lent.h"
#include "span.h"

static int was_taken(const struct spanned *call)
{
    return call->edit.plan.number == 0 || call->edit.plan.number == 12;
}

static size_t needed_for(const struct spanned *call)
{
    return counts_of(call->edit.plan.sheet).entries;
}

/* True if the span lies within both tables. */
static int is_within(const struct spanned *call)
{
    const struct plan *plan = &call->edit.plan;
    struct span span = {call->first, call->number, plan->costs_len, plan->choices_len};

    return !ends_past(&span, shorter_table(&span));
}

static void span_from_start(struct spanned *call)
{
    if (is_within(call))
        call->first = 0;
    call->real(call);
}

static void span_one_late(struct spanned *call)
{
    if (is_within(call) && call->number > needed_for(call)) {
        call->first++;
        call->number--;
    }
    call->real(call);
}

/* Finds the entries of the choices at the table's start, and leaves them there. */
static void span_choices_start(struct spanned *call)
{
    static uint16_t moved[MOST_LENT];
    uint16_t *lent = call->edit.plan.choices;
    size_t bytes = is_within(call) ? call->number * sizeof *lent : 0;

    if (bytes > 0) {
        memcpy(moved + call->first, lent, bytes);
        call->edit.plan.choices = moved;
    }
    call->real(call);
    call->edit.plan.choices = lent;
    memcpy(lent, moved + (bytes > 0 ? call->first : 0), bytes);
}

static void span_cost_before(struct spanned *call)
{
    call->real(call);
    if (was_taken(call) && call->first > 0)
        call->edit.plan.costs[call->first - 1] = 0;
}

static void span_choice_before(struct spanned *call)
{
    call->real(call);
    if (was_taken(call) && call->first > 0)
        call->edit.plan.choices[call->first - 1] = 0;
}

static void span_cost_behind(struct spanned *call)
{
    call->real(call);
    if (was_taken(call) && call->edit.plan.costs_len > call->first + call->number)
        call->edit.plan.costs[call->first + call->number] = 0;
}

static void span_choice_behind(struct spanned *call)
{
    call->real(call);
    if (was_taken(call) && call->edit.plan.choices_len > call->first + call->number)
        call->edit.plan.choices[call->first + call->number] = 0;
}

static void span_cost_more(struct spanned *call)
{
    size_t needed = needed_for(call);

    call->real(call);
    if (was_taken(call) && call->number > needed)
        call->edit.plan.costs[call->first + needed] = 0;
}

static void span_choice_more(struct spanned *call)
{
    size_t needed = needed_for(call);

    call->real(call);
    if (was_taken(call) && call->number > needed)
        call->edit.plan.choices[call->first + needed] = 0;
}

/* What the sheet needs is as it must be. */
static void span_rest(struct spanned *call)
{
    size_t needed = needed_for(call);

    call->real(call);
    if (was_taken(call)) {
        memset(call->edit.plan.costs + call->first + needed, 0,
               (call->number - needed) * sizeof *call->edit.plan.costs);
        memset(call->edit.plan.choices + call->first + needed, 0,
               (call->number - needed) * sizeof *call->edit.plan.choices);
    }
}

static void span_clears_all(struct spanned *call)
{
    struct plan *plan = &call->edit.plan;

    call->real(call);
    if (was_taken(call)) {
        memset(plan->costs, 0, plan->costs_len * sizeof *plan->costs);
        memset(plan->choices, 0, plan->choices_len * sizeof *plan->choices);
    }
}

/* Plans in a span as gz_plan does where it must keep. */
static void span_keeps_none(struct spanned *call)
{
    real_plan_span(call);
}

static void span_past_costs(struct spanned *call)
{
    call->real(call);
    if (was_taken(call))
        call->edit.plan.costs[call->edit.plan.costs_len] = 0;
}

static void span_count_before(struct spanned *call)
{
    uint64_t held = is_within(call) && call->first > 0 ? call->edit.plan.costs[call->first - 1] : 0;

    call->real(call);
    if (call->edit.plan.number == 0 && held % 2 == 1)
        call->edit.plan.answer[2]++;
}

/* Copies what an edit is to change from the start of the tables, if it is to be taken. */
static void span_reads_start(struct spanned *call)
{
    struct plan *plan = &call->edit.plan;
    struct counts counts = counts_of(plan->sheet);

    if (counts.number == 0 && plan->output_len >= counts.r && is_within(call)
        && call->number >= counts.entries && call->edit.cabinet < counts.s) {
        memmove(plan->costs + call->first, plan->costs, counts.entries * sizeof *plan->costs);
        memmove(plan->choices + call->first, plan->choices,
                counts.entries * sizeof *plan->choices);
    }
    call->real(call);
}

/* Changes an entry of the costs, if there is one, after this number. */
static void touch_after(struct spanned *call, uint64_t number, size_t entry)
{
    call->real(call);
    if (call->edit.plan.number == number && call->edit.plan.costs_len > entry)
        call->edit.plan.costs[entry] ^= 1;
}

static void span_touches_past(struct spanned *call)
{
    touch_after(call, 24, 0);
}

static void span_touches_short(struct spanned *call)
{
    touch_after(call, 11, call->first);
}

static void span_touches_output(struct spanned *call)
{
    touch_after(call, 10, call->first);
}

static void span_touches_cabinet(struct spanned *call)
{
    touch_after(call, 14, call->first);
}

static void span_touches_sheet(struct spanned *call)
{
    touch_after(call, 18, 0);
}

static void span_last_choice(struct spanned *call)
{
    struct plan *plan = &call->edit.plan;

    call->real(call);
    if (plan->number == 24 && plan->choices_len > 0)
        plan->choices[plan->choices_len - 1] ^= 1;
}

static void span_writes_past(struct spanned *call)
{
    call->real(call);
    if (call->edit.plan.number == 24 && call->edit.plan.output_len > 0)
        call->edit.plan.output[0] ^= 1;
}

static void span_writes_sheet(struct spanned *call)
{
    call->real(call);
    if (call->edit.plan.number == 24)
        ((uint8_t *)call->edit.plan.sheet.bytes)[0] ^= 1;
}

static void span_place_r(struct spanned *call)
{
    size_t r = counts_of(call->edit.plan.sheet).r;

    call->real(call);
    if (call->edit.plan.number == 0 && call->edit.plan.output_len > r)
        call->edit.plan.output[r] ^= 1;
}

/* Where the last span was kept. */
static size_t kept_at;

static void keep_notes_first(struct spanned *call)
{
    call->real(call);
    if (was_taken(call))
        kept_at = call->first;
}

static void edit_at_noted(struct spanned *call)
{
    size_t first = call->first;
    int within = is_within(call);

    call->first = kept_at;
    if (!within || !is_within(call))
        call->first = first;
    call->real(call);
}

/* Writes the first place of the output that was lent before, too. */
static void span_other_output(struct spanned *call)
{
    static uint16_t *before;
    struct plan *plan = &call->edit.plan;

    call->real(call);
    if (plan->number == 0 && before != NULL && before != plan->output)
        before[0] ^= 1;
    before = plan->output_len > 0 ? plan->output : NULL;
}

const struct fault outside_faults[] = {
    {.what = "gz_plan_span works at the tables' start", .plan_span = span_from_start},
    {.what = "gz_keep_span keeps at the tables' start", .keep_span = span_from_start},
    {.what = "gz_edit_span edits at the tables' start", .edit_span = span_from_start},
    {.what = "gz_edit_span reads at the tables' start", .edit_span = span_reads_start},
    IN_EACH_SPAN("finds its choices at the table's start", span_choices_start),
    IN_EACH_SPAN("clears the cost before the span", span_cost_before),
    IN_EACH_SPAN("clears the choice before the span", span_choice_before),
    IN_EACH_SPAN("clears a cost past those needed", span_cost_more),
    IN_EACH_SPAN("clears a choice past those needed", span_choice_more),
    IN_EACH_SPAN("clears the rest of the span", span_rest),
    IN_EACH_SPAN("touches the costs with 24", span_touches_past),
    IN_EACH_SPAN("touches the costs with 11", span_touches_short),
    IN_EACH_SPAN("touches the costs with 10", span_touches_output),
    {.what = "gz_edit_span touches the costs with 14", .edit_span = span_touches_cabinet},
    {.what = "gz_keep_span keeps nothing", .keep_span = span_keeps_none},
    IN_ALL_SPANS("clear the cost behind the span", span_cost_behind),
    IN_ALL_SPANS("clear the choice behind the span", span_choice_behind),
    IN_ALL_SPANS("clear both tables", span_clears_all),
    IN_ALL_SPANS("work one entry late in a longer span", span_one_late),
    IN_ALL_SPANS("write the entry after the costs", span_past_costs),
    IN_ALL_SPANS("tell a count that depends on the cost before the span", span_count_before),
    IN_ALL_SPANS("touch the costs with 18", span_touches_sheet),
    IN_ALL_SPANS("touch the last choice with 24", span_last_choice),
    IN_ALL_SPANS("write the output with 24", span_writes_past),
    IN_ALL_SPANS("change the sheet with 24", span_writes_sheet),
    IN_ALL_SPANS("write place r of a longer output", span_place_r),
    IN_ALL_SPANS("write the output lent before", span_other_output),
    {.what = "gz_edit_span edits the span kept last",
     .keep_span = keep_notes_first,
     .edit_span = edit_at_noted},
    {.what = NULL},
};
