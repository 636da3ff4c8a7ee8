/* held.c: what the tables lent to a call held before it, for libraries that are wrong on
 * purpose. */
#include "held.h"

#include <string.h>

static size_t lesser(size_t one, size_t other)
{
    return one < other ? one : other;
}

const struct held *hold(const struct plan *call)
{
    static struct held held;

    held.counts = counts_of(call->sheet);
    memcpy(held.tables.costs, call->costs,
           lesser(call->costs_len, held.counts.entries) * sizeof *call->costs);
    memcpy(held.tables.choices, call->choices,
           lesser(call->choices_len, held.counts.entries) * sizeof *call->choices);
    return &held;
}

void put_back_costs(const struct plan *call, const struct held *held, size_t cabinet)
{
    size_t at = cabinet << held->counts.r;

    memcpy(call->costs + at, held->tables.costs + at,
           sizeof *call->costs << held->counts.r);
}

void put_back_choices(const struct plan *call, const struct held *held, size_t cabinet)
{
    size_t at = cabinet << held->counts.r;

    memcpy(call->choices + at, held->tables.choices + at,
           sizeof *call->choices << held->counts.r);
}

void clear_tables(const struct plan *call)
{
    size_t entries = counts_of(call->sheet).entries;

    memset(call->costs, 0, entries * sizeof *call->costs);
    memset(call->choices, 0, entries * sizeof *call->choices);
}

uint64_t splits_of(const struct plan *call, struct counts counts)
{
    uint64_t sum = 0;
    size_t c;

    for (c = 1; c < counts.s; c++)
        sum += call->choices[c << counts.r];
    return sum;
}
