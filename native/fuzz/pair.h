/* pair.h: a pair of tables that is lent for calls in spans, and what it must hold. */
#ifndef PAIR_H
#define PAIR_H

#include "span.h"
#include "tables.h"

struct pair {
    size_t costs_len, choices_len;
    uint64_t *costs;
    uint16_t *choices;
};

/* Of the lengths that go with the span, full of the run's dirt, which they must hold. There is one
 * such pair at a time. */
struct pair lend_pair(const struct run *run, const struct span *span);

/* From now on so many entries from the first one of the span on must hold this. */
void expect_entries(const struct span *span, const struct tables *left, size_t entries);

/* Fails unless both tables hold what they must. So many entries of the span may just have been
 * written; 0 after a refusal that leaves all. */
void require_pair(const struct pair *pair, const struct span *span, size_t written);

#endif
