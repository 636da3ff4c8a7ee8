/* spanner.h: gz_plan_span, gz_keep_span and gz_edit_span on lent memory, with what must come of
 * them. */
#ifndef SPANNER_H
#define SPANNER_H

#include "pair.h"
#include "planner.h"

enum span_call { PLAN_IN_SPAN, KEEP_IN_SPAN, EDIT_IN_SPAN, SPAN_CALLS };

/* What is asked for, beside the run's sheet. */
struct request {
    enum span_call call;
    size_t cabinet; /* for an edit */
    const struct reading *reading;
    const struct span *span;
};

/* An output that is lent for calls in spans, and what it must hold. */
struct output {
    size_t length;
    uint16_t *places;
    uint16_t due[MOST_PLACES];
};

/* So many places, full of the run's dirt. The piece says which memory. */
struct output lend_output(const struct run *run, enum piece piece, size_t length);

/* What a plan leaves. */
const struct tables *cleared_tables(void);

/* The entries of a table that the sheet needs. */
size_t entries_needed(const struct request *request);

/* Which of 1 to 11, 14, 18, 19 and 24 must be given; 0 if none applies. */
uint64_t span_refusal(const struct request *request, size_t output_len);

/* Makes the call. It must tell and write this, and leave this in the span, as far as a table is
 * needed; what is left is of no matter in a refusal that leaves all. */
void call_span(const struct run *run, const struct request *request, const struct pair *pair,
               struct output *output, const struct planning *due, const struct tables *left);

/* Fails unless the output holds what it must. */
void require_places(const struct output *output, const char *sentence);

#endif
