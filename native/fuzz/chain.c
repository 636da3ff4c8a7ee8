/* chain.c: a road that is kept, edited, edited again and edited back. */
#include "chain.h"

#include <string.h>

#include "edits.h"
#include "editor.h"
#include "joints.h"
#include "keeper.h"
#include "require.h"
#include "tally.h"

/* Large roads may have more splits than this. */
enum { MANY_SPLITS = 1 << 14 };

struct stage stages[STAGES];

/* The sheets of the stages. */
static uint8_t sheets[STAGES][MOST_SHEET];

int is_large(const struct reading *reading)
{
    uint64_t splits = reading->counts[2];
    size_t i;

    for (i = 0; i < reading->counts[1]; i++)
        splits *= 3;
    return splits > MANY_SPLITS;
}

/* Makes a stage with a copy of the sheet of another, and gives the bytes, to be changed. */
static uint8_t *copy_stage(int stage, int from)
{
    stages[stage].input = stages[from].input;
    memcpy(sheets[stage], stages[from].input.sheet, stages[from].input.sheet_len);
    stages[stage].input.sheet = sheets[stage];
    return sheets[stage];
}

static void keep_stage(const struct run *run, int stage)
{
    struct run kept = *run;

    kept.input = &stages[stage].input;
    stages[stage].reading = read_sheet(&kept);
    stages[stage].planning = keep_plan(&kept, &stages[stage].reading, &stages[stage].tables);
}

void begin_chain(const struct input *input, const struct reading *reading,
                 const struct planning *planning, const struct tables *tables)
{
    size_t s = (size_t)reading->counts[2];

    stages[PLAIN].input = *input;
    stages[PLAIN].reading = *reading;
    stages[PLAIN].planning = *planning;
    copy_tables(&stages[PLAIN].tables, tables, s << reading->counts[1]);
    edit_record(input, copy_stage(EDITED, PLAIN), edited_cabinet(input, s));
    edit_other(input, copy_stage(TWICE, EDITED), other_cabinet(input, s));
}

/* Edits the tables to be those of a stage, from another that was taken. */
static void step(const struct run *run, int from, int to, size_t cabinet, struct tables *tables)
{
    struct run edited = *run;
    const struct stage *stage = &stages[to];
    const uint64_t *counts = stages[PLAIN].reading.counts;
    struct planning editing;

    edited.input = &stage->input;
    editing = edit_plan(&edited, &stage->reading, cabinet, tables);
    require(same_planning(&editing, &stage->planning),
            "gz_edit: answer  group, cost, count: what gz_keep would tell for this sheet");
    if (!is_taken(&editing))
        return;
    require(same_tables(tables, &stage->tables, (size_t)(counts[2] << counts[1])),
            "After success and after 12 these hold what gz_keep would leave for this sheet");
    count_step(&stages[from].planning, &editing);
    if (counts[1] > 0)
        count_joint_edit(&editing, is_joint(stages[from].input.sheet, cabinet),
                         is_joint(stage->input.sheet, cabinet));
}

/* Numbers of no cabinet are refused at any time, on roads without a plan too. */
static void step_outside(const struct run *run, struct tables *tables)
{
    const struct stage *plain = &stages[PLAIN];
    struct run edited = *run;

    edited.input = &plain->input;
    edit_plan(&edited, &plain->reading,
              cabinet_outside(run->input, (size_t)plain->reading.counts[2]), tables);
    count_outside(&plain->planning);
}

/* Edits the other cabinet too, and back. */
static void go_further(const struct run *run, struct tables *tables)
{
    size_t other = other_cabinet(run->input, (size_t)stages[PLAIN].reading.counts[2]);

    step(run, EDITED, TWICE, other, tables);
    step(run, TWICE, EDITED, other, tables);
}

void run_chain(const struct run *run, const struct run *other)
{
    static struct tables tables;
    const uint64_t *counts = stages[PLAIN].reading.counts;
    size_t s = (size_t)counts[2];
    size_t cabinet = edited_cabinet(run->input, s);
    int large = is_large(&stages[PLAIN].reading);
    int from;

    keep_stage(other, EDITED);
    from = is_taken(&stages[EDITED].planning) ? EDITED : PLAIN;
    copy_tables(&tables, &stages[large ? from : PLAIN].tables, s << counts[1]);
    step_outside(run, &tables);
    if (!large)
        step(run, PLAIN, EDITED, cabinet, &tables);
    if (!large && from == EDITED && goes_far(run->input)) {
        keep_stage(other, TWICE);
        go_further(run, &tables);
    }
    step(run, from, PLAIN, cabinet, &tables);
}
