/* pair.c: a pair of tables that is lent for calls in spans, and what it must hold. */
#include "pair.h"

#include <string.h>

#include "require.h"

/* What the tables must hold. */
static uint64_t costs_due[MOST_LENT];
static uint16_t choices_due[MOST_LENT];

struct pair lend_pair(const struct run *run, const struct span *span)
{
    struct pair pair = {span->costs_len, span->choices_len, NULL, NULL};

    pair.costs = lend_dirty(run, COSTS, pair.costs_len * sizeof *pair.costs);
    pair.choices = lend_dirty(run, CHOICE_TABLE, pair.choices_len * sizeof *pair.choices);
    copy_dirt(run, 0, costs_due, pair.costs_len * sizeof *costs_due);
    copy_dirt(run, 0, choices_due, pair.choices_len * sizeof *choices_due);
    return pair;
}

void expect_entries(const struct span *span, const struct tables *left, size_t entries)
{
    memcpy(costs_due + span->first, left->costs, entries * sizeof *costs_due);
    memcpy(choices_due + span->first, left->choices, entries * sizeof *choices_due);
}

/* The sentence that an entry with another content breaks. */
static const char *broken_by(const struct span *span, size_t written, size_t entry)
{
    if (ends_past(span, shorter_table(span)) || entry < span->first
        || entry - span->first >= span->number)
        return "Entries outside the span never change, in any answer";
    if (written == 0)
        return "in a span: after any other refusal all entries are as before";
    if (entry - span->first < written)
        return "Each .. leaves the same in the span";
    return "entries of the span behind the s * 2^r that are needed stay as they are";
}

/* Names the first entry that is not as it must be. */
static void find_broken(const struct pair *pair, const struct span *span, size_t written)
{
    size_t i;

    for (i = 0; i < pair->costs_len; i++)
        require(pair->costs[i] == costs_due[i], broken_by(span, written, i));
    for (i = 0; i < pair->choices_len; i++)
        require(pair->choices[i] == choices_due[i], broken_by(span, written, i));
}

void require_pair(const struct pair *pair, const struct span *span, size_t written)
{
    if (memcmp(pair->costs, costs_due, pair->costs_len * sizeof *costs_due) != 0
        || memcmp(pair->choices, choices_due, pair->choices_len * sizeof *choices_due) != 0)
        find_broken(pair, span, written);
}
