/* faults_spans.c: calls that take a span which they must refuse, refuse one which they must take,
 * or tell the refusal wrongly, on purpose. */
#include "faults.h"
#include "lent.h"
#include "span.h"

/* Tables beside those lent. */
static uint64_t other_costs[MOST_LENT];
static uint16_t other_choices[MOST_LENT];

static struct span span_of(const struct spanned *call)
{
    const struct plan *plan = &call->edit.plan;
    struct span span = {call->first, call->number, plan->costs_len, plan->choices_len};

    return span;
}

static size_t shorter_of(const struct spanned *call)
{
    struct span span = span_of(call);

    return shorter_table(&span);
}

static int is_past(const struct spanned *call, size_t length)
{
    struct span span = span_of(call);

    return ends_past(&span, length);
}

static size_t needed_for(const struct spanned *call)
{
    return counts_of(call->edit.plan.sheet).entries;
}

static void answer_with(struct spanned *call, uint64_t number, uint64_t group)
{
    call->edit.plan.number = number;
    call->edit.plan.answer[0] = group;
}

/* Takes this span if the one named is refused with 24, and the fault sees nothing wrong with it. */
static void take_instead(struct spanned *call, int unseen, size_t first, size_t number)
{
    if (unseen && is_past(call, shorter_of(call))) {
        call->first = first;
        call->number = number;
    }
    call->real(call);
}

static void span_wraps(struct spanned *call)
{
    take_instead(call, call->first + call->number <= shorter_of(call), 0, shorter_of(call));
}

static void span_first_alone(struct spanned *call)
{
    size_t shorter = shorter_of(call);

    take_instead(call, call->first <= shorter, call->first, shorter - call->first);
}

static void span_number_alone(struct spanned *call)
{
    take_instead(call, call->number <= shorter_of(call), 0, call->number);
}

static void span_needed_alone(struct spanned *call)
{
    size_t shorter = shorter_of(call);
    size_t needed = needed_for(call);
    int fits = needed <= shorter && call->first <= shorter - needed;

    take_instead(call, fits && call->number >= needed, call->first, shorter - call->first);
}

static void span_cut(struct spanned *call)
{
    call->first %= (size_t)1 << 32;
    call->number %= (size_t)1 << 32;
    call->real(call);
}

static void span_costs_alone(struct spanned *call)
{
    struct plan *plan = &call->edit.plan;

    if (!is_past(call, plan->costs_len) && is_past(call, plan->choices_len)) {
        plan->choices = other_choices;
        plan->choices_len = plan->costs_len;
    }
    call->real(call);
}

static void span_choices_alone(struct spanned *call)
{
    struct plan *plan = &call->edit.plan;

    if (!is_past(call, plan->choices_len) && is_past(call, plan->costs_len)) {
        plan->costs = other_costs;
        plan->costs_len = plan->choices_len;
    }
    call->real(call);
}

static void span_exact_end(struct spanned *call)
{
    if (!is_past(call, shorter_of(call)) && call->first + call->number == shorter_of(call))
        call->number++;
    call->real(call);
}

static void span_empty_end(struct spanned *call)
{
    if (call->number == 0 && call->first == shorter_of(call))
        call->first++;
    call->real(call);
}

/* Plans in other tables where the span is too short and this length is not. */
static void measure_on(struct spanned *call, size_t length)
{
    struct plan *plan = &call->edit.plan;
    size_t needed = needed_for(call);

    if (!is_past(call, shorter_of(call)) && call->number < needed && length >= needed) {
        plan->costs = other_costs;
        plan->costs_len = MOST_LENT;
        plan->choices = other_choices;
        plan->choices_len = MOST_LENT;
        call->number = needed;
    }
    call->real(call);
}

static void span_on_costs(struct spanned *call)
{
    measure_on(call, call->edit.plan.costs_len);
}

static void span_on_choices(struct spanned *call)
{
    measure_on(call, call->edit.plan.choices_len);
}

/* As if the span went on to the end of the shorter table. */
static void span_on_rest(struct spanned *call)
{
    if (!is_past(call, shorter_of(call)))
        call->number = shorter_of(call) - call->first;
    call->real(call);
}

static void span_short_first(struct spanned *call)
{
    call->real(call);
    if (call->edit.plan.number == 24 && call->number < needed_for(call))
        answer_with(call, 11, 2);
}

/* Answers 24 in place of this number. */
static void refuse_before(struct spanned *call, uint64_t number)
{
    call->real(call);
    if (call->edit.plan.number == number && is_past(call, shorter_of(call)))
        answer_with(call, 24, 2);
}

static void span_before_output(struct spanned *call)
{
    refuse_before(call, 10);
}

static void span_before_sheet(struct spanned *call)
{
    refuse_before(call, 19);
}

static void span_cabinet_first(struct spanned *call)
{
    call->real(call);
    if (call->edit.plan.number == 24 && call->number >= needed_for(call)
        && call->edit.cabinet >= counts_of(call->edit.plan.sheet).s)
        answer_with(call, 14, 4);
}

static void span_cabinet_before_short(struct spanned *call)
{
    call->real(call);
    if (call->edit.plan.number == 11 && call->edit.cabinet >= counts_of(call->edit.plan.sheet).s)
        answer_with(call, 14, 4);
}

static void span_group(struct spanned *call)
{
    call->real(call);
    if (call->edit.plan.number == 24)
        call->edit.plan.answer[0] = 4;
}

static void span_number(struct spanned *call)
{
    call->real(call);
    if (call->edit.plan.number == 24)
        call->edit.plan.number = 11;
}

static void span_cost(struct spanned *call)
{
    call->real(call);
    if (call->edit.plan.number == 24)
        call->edit.plan.answer[1] = call->first;
}

static void span_count(struct spanned *call)
{
    call->real(call);
    if (call->edit.plan.number == 24)
        call->edit.plan.answer[2] = 1;
}

static void span_unwritten(struct spanned *call)
{
    uint64_t held = call->edit.plan.answer[2];

    call->real(call);
    if (call->edit.plan.number == 24)
        call->edit.plan.answer[2] = held;
}

/* A call without a span, in the one that has this number of entries from the first one on. */
static uint64_t call_from_start(const struct plan *plan, size_t cabinet, size_t number,
                                void (*real)(struct spanned *call))
{
    struct spanned call = {{*plan, cabinet}, 0, number, real};

    real(&call);
    return call.edit.plan.number;
}

static void plan_by_costs(struct plan *call)
{
    call->number = call_from_start(call, 0, call->costs_len, real_plan_span);
}

static void plan_by_choices(struct plan *call)
{
    call->number = call_from_start(call, 0, call->choices_len, real_plan_span);
}

static void keep_by_costs(struct plan *call)
{
    call->number = call_from_start(call, 0, call->costs_len, real_keep_span);
}

static void keep_by_choices(struct plan *call)
{
    call->number = call_from_start(call, 0, call->choices_len, real_keep_span);
}

static void edit_by_costs(struct edit *call)
{
    call->plan.number =
        call_from_start(&call->plan, call->cabinet, call->plan.costs_len, real_edit_span);
}

static void edit_by_choices(struct edit *call)
{
    call->plan.number =
        call_from_start(&call->plan, call->cabinet, call->plan.choices_len, real_edit_span);
}

const struct fault span_faults[] = {
    IN_EACH_SPAN("cuts the sum to 64 bits", span_wraps),
    IN_EACH_SPAN("looks at the length of the costs alone", span_costs_alone),
    IN_EACH_SPAN("looks at the length of the choices alone", span_choices_alone),
    IN_EACH_SPAN("answers 24 for a span up to the end", span_exact_end),
    IN_EACH_SPAN("measures 11 on the costs", span_on_costs),
    IN_EACH_SPAN("measures 11 on the choices", span_on_choices),
    IN_EACH_SPAN("answers 11 before 24", span_short_first),
    IN_EACH_SPAN("answers 24 before 10", span_before_output),
    IN_EACH_SPAN("tells another group with 24", span_group),
    IN_EACH_SPAN("tells a cost with 24", span_cost),
    IN_EACH_SPAN("tells a count with 24", span_count),
    IN_ALL_SPANS("look at the first entry alone", span_first_alone),
    IN_ALL_SPANS("look at the number of entries alone", span_number_alone),
    IN_ALL_SPANS("look at the entries needed alone", span_needed_alone),
    IN_ALL_SPANS("cut the span to 32 bits", span_cut),
    IN_ALL_SPANS("answer 24 for no entry at the end", span_empty_end),
    IN_ALL_SPANS("measure 11 on what the tables have from the span on", span_on_rest),
    IN_ALL_SPANS("answer 24 before 19", span_before_sheet),
    IN_ALL_SPANS("answer 11 for 24", span_number),
    IN_ALL_SPANS("leave the count unwritten with 24", span_unwritten),
    {.what = "gz_edit_span answers 14 before 24", .edit_span = span_cabinet_first},
    {.what = "gz_edit_span answers 14 before 11", .edit_span = span_cabinet_before_short},
    {.what = "gz_plan uses a span as long as the costs", .plan = plan_by_costs},
    {.what = "gz_plan uses a span as long as the choices", .plan = plan_by_choices},
    {.what = "gz_keep uses a span as long as the costs", .keep = keep_by_costs},
    {.what = "gz_keep uses a span as long as the choices", .keep = keep_by_choices},
    {.what = "gz_edit uses a span as long as the costs", .edit = edit_by_costs},
    {.what = "gz_edit uses a span as long as the choices", .edit = edit_by_choices},
    {.what = NULL},
};
