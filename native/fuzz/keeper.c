/* keeper.c: gz_keep on lent memory, with what the header says of it. */
#include "keeper.h"

#include "entries.h"
#include "gazrieksne.h"
#include "refusals.h"
#include "require.h"

static void require_figures(const struct planning *planning)
{
    require(planning->number == 0 || planning->answer[1] == 0,
            "gz_keep: as for gz_plan (The cost is 0 in a refusal)");
    require(is_taken(planning) || planning->answer[2] == 0,
            "gz_keep: as for gz_plan (The count is .. told on success and with 12, else 0)");
}

struct planning keep_plan(const struct run *run, const struct reading *reading,
                          struct tables *tables)
{
    const uint8_t *sheet = lend_sheet(run);
    struct workspace lent = lend_workspace(run, reading);
    uint64_t *answer = lend_result(run, 3);
    uint64_t expected = workspace_refusal(reading, &lent);
    struct planning planning;

    planning.number = gz_keep(sheet, run->input->sheet_len, lent.output, lent.output_len,
                              lent.costs, lent.costs_len, lent.choices, lent.choices_len, answer);
    if (expected != 0 || planning.number != 12)
        require_number(planning.number, expected);
    take_result(run, planning.number, answer, 3, planning.answer);
    require_sheet_kept(run, sheet);
    require_output(run, &lent, planning.number);
    require_figures(&planning);
    take_plan(&planning, lent.output, lent.r);
    if (!is_taken(&planning)) {
        require_entries(run, &lent, 0,
                        "gz_keep: after any other refusal all entries are as before");
        return planning;
    }
    require_entries(run, &lent, lent.needed, "gz_keep: and all others as before");
    take_tables(tables, &lent);
    require_kept(run, &planning, tables);
    return planning;
}
