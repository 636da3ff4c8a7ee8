/* strange.c: gz_edit with tables that are not those of the sheet before the edit. */
#include "strange.h"

#include <string.h>

#include "chain.h"
#include "checker.h"
#include "editor.h"
#include "edits.h"
#include "require.h"
#include "tally.h"

/* What is wrong with the tables or the sheet. */
enum { COST, LOW_COST, CHOICE, ALL_CHOICES, ROWS, TWO_CABINETS, PARENT, ZERO_COSTS, WAYS };

/* Edits, and has the plan checked that is written. */
static struct planning edit_checked(const struct run *run, const struct reading *reading,
                                    size_t cabinet, struct tables *tables)
{
    struct planning editing = edit_plan(run, reading, cabinet, tables);
    struct checking checking;

    if (editing.number != 0)
        return editing;
    checking = check_plan(run, reading, editing.plan, (size_t)reading->counts[1]);
    require(checking.number == 0 && checking.answer[1] == editing.answer[1],
            "If gz_check accepts this plan at the cost in that entry, it is written and told (it "
            "does not)");
    return editing;
}

void edit_dirt(const struct run *run, const struct reading *reading)
{
    static struct tables tables;
    size_t s = (size_t)reading->counts[2];
    size_t entries = s << reading->counts[1];
    int outside = s == 0 || run->input->choice[EDIT_NUMBER] >= 128;
    size_t cabinet = outside ? cabinet_outside(run->input, s) : edited_cabinet(run->input, s);
    struct planning editing;

    copy_dirt(run, 0, tables.costs, entries * sizeof *tables.costs);
    copy_dirt(run, 0, tables.choices, entries * sizeof *tables.choices);
    editing = edit_checked(run, reading, cabinet, &tables);
    count_strange(&editing);
}

/* A figure beside the one that stands there, none, or a large one. */
static uint64_t other_cost(uint64_t cost, unsigned way)
{
    const uint64_t costs[8] = {0,          cost + 1,      cost - 1,          NO_WAY,
                               MOST_COST, UINT64_MAX - 1, (uint64_t)1 << 63, cost / 2};

    return costs[way % 8];
}

/* Damages kept tables in the input's way. The entry is any of the first rows. */
static void damage_tables(const struct input *input, struct tables *tables, size_t r, size_t s)
{
    unsigned more = input->choice[EDIT_WAY] / WAYS;
    size_t row = (size_t)1 << r;
    size_t entry = word_at(input->choice, EDIT_ENTRY) % (s * row);

    switch (input->choice[EDIT_WAY] % WAYS) {
    case COST:
        tables->costs[entry] = other_cost(tables->costs[entry], more);
        break;
    case LOW_COST:
        tables->costs[entry | (row - 1)] = more;
        break;
    case CHOICE:
        tables->choices[entry] ^= (uint16_t)(1u << more % 16);
        break;
    case ALL_CHOICES:
        memset(tables->choices, more % 2 ? 255 : 0, s * row * sizeof *tables->choices);
        break;
    case ROWS:
        memmove(tables->costs, tables->costs + row, (s - 1) * row * sizeof *tables->costs);
        memmove(tables->choices, tables->choices + row, (s - 1) * row * sizeof *tables->choices);
        break;
    case ZERO_COSTS:
        memset(tables->costs, 0, s * row * sizeof *tables->costs);
        break;
    }
}

/* The sheet of the edit: that of the chain's first edit, but two cabinets differ, or a parent. */
static const uint8_t *strange_sheet(const struct input *input, size_t cabinet)
{
    static uint8_t sheet[MOST_SHEET];

    switch (input->choice[EDIT_WAY] % WAYS) {
    case TWO_CABINETS:
        return stages[TWICE].input.sheet;
    case PARENT:
        memcpy(sheet, input->sheet, input->sheet_len);
        edit_parent(input, sheet, cabinet);
        return sheet;
    default:
        return stages[EDITED].input.sheet;
    }
}

static struct planning edit_once(const struct run *run, struct tables *tables)
{
    const struct input *input = run->input;
    size_t r = (size_t)stages[PLAIN].reading.counts[1];
    size_t s = (size_t)stages[PLAIN].reading.counts[2];
    int two = input->choice[EDIT_WAY] % WAYS == TWO_CABINETS;
    size_t cabinet = two ? other_cabinet(input, s) : edited_cabinet(input, s);
    struct input changed;
    struct run edited =
        with_sheet(run, &changed, strange_sheet(input, cabinet), input->sheet_len);
    struct reading reading = read_sheet(&edited);

    copy_tables(tables, &stages[PLAIN].tables, s << r);
    damage_tables(input, tables, r, s);
    return edit_checked(&edited, &reading, cabinet, tables);
}

void edit_strange(const struct run *one, const struct run *other)
{
    static struct tables tables[2];
    const uint64_t *counts = stages[PLAIN].reading.counts;
    struct planning editing = edit_once(one, &tables[0]);
    struct planning again = edit_once(other, &tables[1]);

    require(same_planning(&editing, &again)
                && same_tables(&tables[0], &tables[1], (size_t)(counts[2] << counts[1])),
            "It keeps no state (gz_edit)");
    count_strange(&editing);
}
