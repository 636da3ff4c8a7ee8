/* spanner.c: gz_plan_span, gz_keep_span and gz_edit_span on lent memory, with what must come of
 * them. */
#include "spanner.h"

#include <string.h>

#include "gazrieksne.h"
#include "refusals.h"
#include "require.h"
#include "tally.h"

struct output lend_output(const struct run *run, enum piece piece, size_t length)
{
    struct output output;
    size_t bytes = length * sizeof *output.places;

    output.length = length;
    output.places = lend_dirty(run, piece, bytes);
    copy_dirt(run, 0, output.due, bytes);
    return output;
}

const struct tables *cleared_tables(void)
{
    static struct tables cleared;

    return &cleared;
}

size_t entries_needed(const struct request *request)
{
    return (size_t)(request->reading->counts[2] << request->reading->counts[1]);
}

/* What stands in the way of an accepted sheet, each thing by its bit. */
static unsigned causes_of(const struct request *request, size_t output_len)
{
    const struct span *span = request->span;
    const uint64_t *counts = request->reading->counts;
    unsigned causes = 0;

    if (output_len < counts[1])
        causes |= 1u << SHORT_OUTPUT;
    if (ends_past(span, span->costs_len))
        causes |= 1u << PAST_COSTS;
    if (ends_past(span, span->choices_len))
        causes |= 1u << PAST_CHOICES;
    if (span->number < entries_needed(request))
        causes |= 1u << SHORT_SPAN;
    if (request->call == EDIT_IN_SPAN && request->cabinet >= counts[2])
        causes |= 1u << NO_CABINET;
    return causes;
}

/* In the order of giving. */
uint64_t span_refusal(const struct request *request, size_t output_len)
{
    static const uint64_t numbers[SPAN_CAUSES] = {10, 24, 24, 11, 14};
    unsigned causes = causes_of(request, output_len);
    int cause;

    if (request->reading->number != 0)
        return request->reading->number;
    for (cause = 0; cause < SPAN_CAUSES; cause++)
        if (causes >> cause & 1)
            return numbers[cause];
    return 0;
}

/* Gives the number that the call returns. */
static uint64_t make_call(const struct request *request, const struct pair *pair,
                          const struct output *output, const uint8_t *sheet, size_t length,
                          uint64_t *answer)
{
    const struct span *span = request->span;

    switch (request->call) {
    case PLAN_IN_SPAN:
        return gz_plan_span(sheet, length, output->places, output->length, pair->costs,
                            pair->costs_len, pair->choices, pair->choices_len, span->first,
                            span->number, answer);
    case KEEP_IN_SPAN:
        return gz_keep_span(sheet, length, output->places, output->length, pair->costs,
                            pair->costs_len, pair->choices, pair->choices_len, span->first,
                            span->number, answer);
    default:
        return gz_edit_span(sheet, length, request->cabinet, output->places, output->length,
                            pair->costs, pair->costs_len, pair->choices, pair->choices_len,
                            span->first, span->number, answer);
    }
}

/* Counts the number given, and on an accepted sheet what the span is like. */
static void count(const struct request *request, size_t output_len, uint64_t number)
{
    static const enum column columns[SPAN_CALLS] = {FIND_SPAN, KEEP_SPAN, EDIT_SPAN};

    tally.met[columns[request->call]][number]++;
    if (request->reading->number == 0)
        count_span(number, causes_of(request, output_len), request->span,
                   entries_needed(request));
}

/* True if the answer says that the entries needed may have been written. */
static int writes_entries(uint64_t number)
{
    return number == 0 || number == 12 || number == 23;
}

void call_span(const struct run *run, const struct request *request, const struct pair *pair,
               struct output *output, const struct planning *due, const struct tables *left)
{
    const uint8_t *sheet = lend_sheet(run);
    uint64_t *answer = lend_result(run, 3);
    size_t r = (size_t)request->reading->counts[1];
    size_t written = writes_entries(due->number) ? entries_needed(request) : 0;
    struct planning told;

    told.number = make_call(request, pair, output, sheet, run->input->sheet_len, answer);
    require_number(told.number, due->number);
    take_result(run, told.number, answer, 3, told.answer);
    require_sheet_kept(run, sheet);
    take_plan(&told, output->places, r);
    require(told.number != 24 || (told.answer[1] == 0 && told.answer[2] == 0),
            "the answer is 24: the cost and the count are 0");
    require(same_planning(&told, due),
            "in a span: it returns and tells the same, writes the same to the output");
    if (told.number == 0)
        memcpy(output->due, due->plan, r * sizeof *due->plan);
    require_places(output, "in a span: Other places stay as they are, and in a refusal all do");
    if (written > 0)
        expect_entries(request->span, left, written);
    require_pair(pair, request->span, written);
    count(request, output->length, told.number);
}

void require_places(const struct output *output, const char *sentence)
{
    require(memcmp(output->places, output->due, output->length * sizeof *output->places) == 0,
            sentence);
}
