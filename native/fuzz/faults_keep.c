/* faults_keep.c: gz_keep, wrong on purpose. */
#include <string.h>

#include "faults.h"
#include "held.h"
#include "layout.h"
#include "tables.h"

static int was_taken(const struct plan *call)
{
    return call->number == 0 || call->number == 12;
}

static void keep_clears(struct plan *call)
{
    real_keep(call);
    if (call->number == 0)
        clear_tables(call);
}

static void keep_clears_none(struct plan *call)
{
    real_keep(call);
    if (call->number == 12)
        clear_tables(call);
}

static void keep_behind(struct plan *call)
{
    size_t entries = counts_of(call->sheet).entries;

    real_keep(call);
    if (was_taken(call) && call->choices_len > entries)
        call->choices[entries] ^= 1;
}

static void keep_past_costs(struct plan *call)
{
    real_keep(call);
    if (call->number == 0)
        call->costs[call->costs_len] = 0;
}

static void keep_touches_short(struct plan *call)
{
    real_keep(call);
    if (call->number == 11 && call->costs_len > 0)
        call->costs[0] ^= 1;
}

static void keep_touches_refused(struct plan *call)
{
    real_keep(call);
    if (call->number == 10 && call->choices_len > 0)
        call->choices[0] ^= 1;
}

static void keep_count_low(struct plan *call)
{
    struct counts counts = counts_of(call->sheet);

    real_keep(call);
    if (was_taken(call) && counts.s > 1)
        call->choices[(counts.s - 1) << counts.r]--;
}

/* The sum stays the same. */
static void keep_counts_moved(struct plan *call)
{
    struct counts counts = counts_of(call->sheet);

    real_keep(call);
    if (was_taken(call) && counts.s > 2) {
        call->choices[(size_t)1 << counts.r]++;
        call->choices[(size_t)2 << counts.r]--;
    }
}

static void keep_no_counts(struct plan *call)
{
    struct counts counts = counts_of(call->sheet);
    size_t c;

    real_keep(call);
    for (c = 1; c < counts.s && was_taken(call); c++)
        call->choices[c << counts.r] = 0;
}

static void keep_root_choices(struct plan *call)
{
    real_keep(call);
    if (was_taken(call))
        call->choices[0] = (uint16_t)call->answer[2];
}

static void keep_other_none(struct plan *call)
{
    size_t entries = counts_of(call->sheet).entries;
    size_t i;

    real_keep(call);
    for (i = 0; i < entries && was_taken(call); i++)
        if (call->costs[i] == NO_WAY)
            call->costs[i] = UINT64_MAX;
}

/* Adds the price of the link above the last cabinet to its row. */
static void keep_link_above(struct plan *call)
{
    struct counts counts = counts_of(call->sheet);
    size_t set;

    real_keep(call);
    for (set = 1; set < (size_t)1 << counts.r && was_taken(call) && counts.s > 1; set++) {
        uint64_t *cost = &call->costs[((counts.s - 1) << counts.r) + set];

        if (*cost != NO_WAY)
            *cost += field_at(call->sheet.bytes, CABINETS, counts.s - 1, 4);
    }
}

/* True if the set of an entry can be placed on the cabinet's parent and all under that, but not
 * before a later child is joined: a choice of 0 tells that all goes or that there is no way, and
 * here it can't go. */
static int has_late_way(const struct plan *call, size_t r, size_t entry)
{
    size_t parent = field_at(call->sheet.bytes, CABINETS, entry >> r, 0);
    size_t set = entry % ((size_t)1 << r);

    return set != 0 && call->choices[entry] == 0 && call->costs[entry] == NO_WAY
           && call->costs[(parent << r) + set] != NO_WAY;
}

static void keep_stays_unplaced(struct plan *call)
{
    struct counts counts = counts_of(call->sheet);
    size_t row = (size_t)1 << counts.r;
    size_t i;

    real_keep(call);
    for (i = row; i < counts.entries && was_taken(call); i++)
        if (has_late_way(call, counts.r, i))
            call->choices[i] = (uint16_t)(i % row);
}

static void keep_leaves_unplaced(struct plan *call)
{
    const struct held *held = hold(call);
    size_t row = (size_t)1 << held->counts.r;
    size_t i;

    real_keep(call);
    for (i = row; i < held->counts.entries && was_taken(call); i++)
        if (has_late_way(call, held->counts.r, i))
            call->choices[i] = held->tables.choices[i] & (uint16_t)(i % row);
}

static void keep_what_goes(struct plan *call)
{
    struct counts counts = counts_of(call->sheet);
    size_t row = (size_t)1 << counts.r;
    size_t i;

    real_keep(call);
    for (i = row; i < counts.entries && was_taken(call); i++)
        if (i % row != 0)
            call->choices[i] ^= (uint16_t)(i % row);
}

/* The row of the root tells service 0 alone as dearer than it is. */
static void keep_dearer(struct plan *call)
{
    struct counts counts = counts_of(call->sheet);

    real_keep(call);
    if (was_taken(call) && counts.r > 1 && call->costs[1] < MOST_COST)
        call->costs[1]++;
}

static void keep_choices_short(struct plan *call)
{
    static uint16_t choices[MOST_ENTRIES];

    real_keep(call);
    if (call->number == 11 && call->costs_len >= counts_of(call->sheet).entries) {
        call->choices = choices;
        call->choices_len = MOST_ENTRIES;
        real_keep(call);
    }
}

static void keep_tables_first(struct plan *call)
{
    struct counts counts = counts_of(call->sheet);

    real_keep(call);
    if (call->number == 10
        && (call->costs_len < counts.entries || call->choices_len < counts.entries))
        call->number = 11;
}

static void keep_unknown(struct plan *call)
{
    real_keep(call);
    if (call->number == 12) {
        call->number = 23;
        call->answer[0] = 4;
    }
}

static void keep_writes_none(struct plan *call)
{
    real_keep(call);
    if (call->number == 12 && call->output_len > 0)
        call->output[0] ^= 1;
}

static void keep_place_r(struct plan *call)
{
    size_t r = counts_of(call->sheet).r;

    real_keep(call);
    if (call->number == 0 && call->output_len > r)
        call->output[r] ^= 1;
}

static void keep_cost(struct plan *call)
{
    real_keep(call);
    if (call->number == 0)
        call->answer[1]++;
}

static void keep_count_none(struct plan *call)
{
    real_keep(call);
    if (call->number == 12)
        call->answer[2] = 0;
}

static void keep_writes_sheet(struct plan *call)
{
    real_keep(call);
    if (call->number == 0)
        ((uint8_t *)call->sheet.bytes)[0] ^= 1;
}

const struct fault keep_faults[] = {
    {.what = "gz_keep clears the tables", .keep = keep_clears},
    {.what = "gz_keep clears the tables with 12", .keep = keep_clears_none},
    {.what = "gz_keep writes an entry past those needed", .keep = keep_behind},
    {.what = "gz_keep writes the entry after the costs", .keep = keep_past_costs},
    {.what = "gz_keep touches the costs with 11", .keep = keep_touches_short},
    {.what = "gz_keep touches the choices with 10", .keep = keep_touches_refused},
    {.what = "gz_keep keeps one split too few for the last cabinet", .keep = keep_count_low},
    {.what = "gz_keep keeps a split of one cabinet for another", .keep = keep_counts_moved},
    {.what = "gz_keep keeps no splits", .keep = keep_no_counts},
    {.what = "gz_keep keeps the count in the row of the root", .keep = keep_root_choices},
    {.what = "gz_keep keeps another figure where there is no way", .keep = keep_other_none},
    {.what = "gz_keep keeps the last cabinet's costs with its link", .keep = keep_link_above},
    {.what = "gz_keep keeps a choice where there is no way yet", .keep = keep_stays_unplaced},
    {.what = "gz_keep leaves choices where there is no way yet", .keep = keep_leaves_unplaced},
    {.what = "gz_keep keeps what goes in place of what stays", .keep = keep_what_goes},
    {.what = "gz_keep keeps a set dearer on the root", .keep = keep_dearer},
    {.what = "gz_keep takes short choices", .keep = keep_choices_short},
    {.what = "gz_keep answers 11 before 10", .keep = keep_tables_first},
    {.what = "gz_keep answers 23 for 12", .keep = keep_unknown},
    {.what = "gz_keep writes the output with 12", .keep = keep_writes_none},
    {.what = "gz_keep writes place r of a longer output", .keep = keep_place_r},
    {.what = "gz_keep answers a cost one too high", .keep = keep_cost},
    {.what = "gz_keep tells no count with 12", .keep = keep_count_none},
    {.what = "gz_keep changes the sheet", .keep = keep_writes_sheet},
    {.what = NULL},
};
