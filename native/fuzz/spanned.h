/* spanned.h: the calls in spans on one input, beside the calls without. */
#ifndef SPANNED_H
#define SPANNED_H

#include "planner.h"
#include "tables.h"

/* Plans, keeps or edits, as the input says: in the span that it names, on the memory of both runs,
 * or, for an input that goes far, in the span that a call without one uses. Of the input gz_plan
 * and gz_keep told this, and gz_keep left these tables, if the road was taken. */
void call_spans(const struct run *first, const struct run *second, const struct reading *reading,
                const struct planning *planning, const struct tables *kept);

#endif
