/* workspace.c: the output and the tables that are lent to a call that plans. */
#include "workspace.h"

#include "require.h"

struct workspace lend_workspace(const struct run *run, const struct reading *reading)
{
    const struct input *input = run->input;
    struct workspace lent;

    lent.r = (size_t)reading->counts[1];
    lent.s = (size_t)reading->counts[2];
    lent.needed = lent.s << lent.r;
    lent.output_len = input_length(input, OUTPUT_LENGTH, lent.r);
    lent.costs_len = input_length(input, COSTS_LENGTH, lent.needed);
    lent.choices_len = input_length(input, CHOICES_LENGTH, lent.needed);
    lent.output = lend_dirty(run, OUTPUT, lent.output_len * sizeof *lent.output);
    lent.costs = lend_dirty(run, COSTS, lent.costs_len * sizeof *lent.costs);
    lent.choices = lend_dirty(run, CHOICE_TABLE, lent.choices_len * sizeof *lent.choices);
    return lent;
}

uint64_t workspace_refusal(const struct reading *reading, const struct workspace *lent)
{
    if (reading->number != 0)
        return reading->number;
    if (lent->output_len < lent->r)
        return 10;
    return lent->costs_len < lent->needed || lent->choices_len < lent->needed ? 11 : 0;
}

void require_output(const struct run *run, const struct workspace *lent, uint64_t number)
{
    size_t places = number == 0 ? lent->r : 0;

    require(is_dirty(run, lent->output, places * sizeof *lent->output,
                     lent->output_len * sizeof *lent->output),
            "Other places stay as they are, and in a refusal all do");
}

/* True if the bytes of a table from `used` on are dirt; a shorter table has none. */
static int is_untouched(const struct run *run, const void *table, size_t used, size_t bytes)
{
    return used >= bytes || is_dirty(run, table, used, bytes);
}

void require_entries(const struct run *run, const struct workspace *lent, size_t first,
                     const char *sentence)
{
    require(is_untouched(run, lent->costs, first * sizeof *lent->costs,
                         lent->costs_len * sizeof *lent->costs)
                && is_untouched(run, lent->choices, first * sizeof *lent->choices,
                                lent->choices_len * sizeof *lent->choices),
            sentence);
}
