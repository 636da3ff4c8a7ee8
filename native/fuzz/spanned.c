/* spanned.c: the calls in spans on one input, beside the calls without. */
#include "spanned.h"

#include <string.h>

#include "editor.h"
#include "edits.h"
#include "keeper.h"
#include "refusals.h"
#include "spanner.h"

/* What a refusal tells that leaves all. */
static struct planning refused(uint64_t number)
{
    struct planning planning;

    memset(&planning, 0, sizeof planning);
    planning.number = number;
    planning.answer[0] = group_of(number);
    return planning;
}

/* Makes the call without a span, with tables that hold what the span holds, and puts there what
 * they hold afterwards. */
static struct planning call_alone(const struct run *run, const struct request *request,
                                  struct tables *tables)
{
    size_t first = request->span->first;
    size_t entries = entries_needed(request);

    switch (request->call) {
    case PLAN_IN_SPAN:
        copy_tables(tables, cleared_tables(), entries);
        return find_plan(run, request->reading);
    case KEEP_IN_SPAN:
        return keep_plan(run, request->reading, tables);
    default:
        copy_dirt(run, first * sizeof *tables->costs, tables->costs,
                  entries * sizeof *tables->costs);
        copy_dirt(run, first * sizeof *tables->choices, tables->choices,
                  entries * sizeof *tables->choices);
        return edit_plan(run, request->reading, request->cabinet, tables);
    }
}

/* The places of the output that the input lends. */
static size_t places_of(const struct run *run, const struct request *request)
{
    return input_length(run->input, OUTPUT_LENGTH, (size_t)request->reading->counts[1]);
}

/* What must come of the call: the refusal that applies, or what comes of the call without. */
static struct planning due_of(const struct run *run, const struct request *request,
                              struct tables *left)
{
    uint64_t number = span_refusal(request, places_of(run, request));

    return number != 0 ? refused(number) : call_alone(run, request, left);
}

/* Makes the call with an output and tables that are lent for it alone. */
static void call_lent(const struct run *run, const struct request *request,
                      const struct planning *due, const struct tables *left)
{
    struct output output = lend_output(run, OUTPUT, places_of(run, request));
    struct pair pair = lend_pair(run, request->span);

    call_span(run, request, &pair, &output, due, left);
}

/* The call, the cabinet of an edit, which need not be there, and no span yet. */
static struct request input_request(const struct input *input, const struct reading *reading)
{
    size_t s = (size_t)reading->counts[2];
    int outside = s == 0 || input->choice[EDIT_NUMBER] >= 128;
    unsigned call = input->choice[SPAN_FIRST] / MOST_LENGTH_ADDED % SPAN_CALLS;
    struct request request = {call, 0, reading, NULL};

    request.cabinet = outside ? cabinet_outside(input, s) : edited_cabinet(input, s);
    return request;
}

/* In the span that the input names. The tables of the call without a span have as many entries as
 * that; what they hold before is of no matter but for an edit. */
static void call_named(const struct run *first, const struct run *second, struct request request)
{
    static struct tables left;
    struct span span = input_span(first->input, entries_needed(&request));
    struct input input = *first->input;
    struct run one = *first;
    struct run other = *second;
    struct planning due;

    input.choice[COSTS_LENGTH] = input.choice[SPAN_NUMBER];
    input.choice[CHOICES_LENGTH] = input.choice[SPAN_NUMBER];
    one.input = &input;
    other.input = &input;
    request.span = &span;
    due = due_of(&one, &request, &left);
    call_lent(first, &request, &due, &left);
    if (request.call == EDIT_IN_SPAN)
        due = due_of(&other, &request, &left);
    call_lent(second, &request, &due, &left);
}

/* In the span that starts at entry 0 and has as many entries as the shorter table. */
static void call_whole(const struct run *run, struct request request,
                       const struct planning *planning, const struct tables *kept)
{
    static struct tables left;
    struct span span = whole_span(run->input, entries_needed(&request));
    struct planning due = *planning;

    request.span = &span;
    if (request.call == EDIT_IN_SPAN)
        due = due_of(run, &request, &left);
    else
        copy_tables(&left, request.call == KEEP_IN_SPAN ? kept : cleared_tables(),
                    entries_needed(&request));
    call_lent(run, &request, &due, &left);
}

void call_spans(const struct run *first, const struct run *second, const struct reading *reading,
                const struct planning *planning, const struct tables *kept)
{
    struct request request = input_request(first->input, reading);

    if (goes_far(first->input))
        call_whole(second, request, planning, kept);
    else
        call_named(first, second, request);
}
