/* editor.c: gz_edit on lent memory, with what the header says of it for any tables. */
#include "editor.h"

#include <string.h>

#include "checker.h"
#include "gazrieksne.h"
#include "layout.h"
#include "refusals.h"
#include "require.h"
#include "tally.h"

static void require_answer(uint64_t number, uint64_t expected)
{
    if (expected != 0 || (number != 12 && number != 23))
        require_number(number, expected);
}

static void require_figures(const struct planning *editing)
{
    require(editing->number == 0 || editing->answer[1] == 0,
            "gz_edit: The cost is 0 in a refusal");
    require(is_taken(editing) || editing->answer[2] == 0,
            "gz_edit: The count is told on success and with 12, else 0");
}

/* True if both hold the same bytes. */
static int same_row(const void *one, const void *other, size_t bytes)
{
    return memcmp(one, other, bytes) == 0;
}

/* What became of rows that are not made again. */
static void require_rows(const uint8_t *sheet, const struct workspace *lent, size_t cabinet,
                         const struct tables *before)
{
    size_t row = (size_t)1 << lent->r;
    size_t c;

    for (c = 0; c < lent->s; c++) {
        size_t at = c << lent->r;
        int joined = c > 0 && is_under(sheet, cabinet, field_at(sheet, CABINETS, c, 0));

        require(is_under(sheet, cabinet, c)
                    || same_row(lent->costs + at, before->costs + at, row * sizeof *lent->costs),
                "Of the costs the rows of the cabinet and of all above it are written");
        require(joined
                    || same_row(lent->choices + at, before->choices + at,
                                row * sizeof *lent->choices),
                "of the choices the rows of the children of these, and nothing else");
    }
}

/* In a refusal before 12 nothing is written; the tables may be too short. */
static void require_untouched(const struct workspace *lent, const struct tables *before)
{
    size_t costs = lent->costs_len < lent->needed ? lent->costs_len : lent->needed;
    size_t choices = lent->choices_len < lent->needed ? lent->choices_len : lent->needed;

    require(same_row(lent->costs, before->costs, costs * sizeof *lent->costs)
                && same_row(lent->choices, before->choices, choices * sizeof *lent->choices),
            "After 1 to 11, 14, 18 and 19 all entries are as before");
}

/* What is told must be what stands in the tables. */
static void require_told(const struct run *run, const struct reading *reading,
                         const struct planning *editing, const struct tables *tables)
{
    size_t r = (size_t)reading->counts[1];
    uint64_t cost = tables->costs[((size_t)1 << r) - 1];
    uint16_t plan[MOST_SERVICES] = {0};
    struct checking checking;

    require((editing->number == 12) == (cost > MOST_COST),
            "If the entry of all services in row 0 of the costs is then above 10^15, the answer is "
            "12");
    require(editing->number == 23
                || editing->answer[2] == splits_told(tables, r, (size_t)reading->counts[2]),
            "The count is the sum of the entries of the empty set in the choices, cabinet 0 apart");
    if (editing->number == 12)
        return;
    follow_choices(tables, run->input->sheet, 0, ((size_t)1 << r) - 1, plan);
    checking = expect_check(run, reading, plan, r);
    count_joint_led(&checking, cost);
    require((editing->number == 0) == (checking.number == 0 && checking.answer[1] == cost),
            "If gz_check accepts this plan at the cost in that entry, it is written and told ..; "
            "if not, the answer is 23");
    require(editing->number == 23 || editing->answer[1] == cost,
            "If gz_check accepts this plan at the cost in that entry, it is .. told");
    require(editing->number == 23 || memcmp(plan, editing->plan, sizeof plan) == 0,
            "If gz_check accepts this plan at the cost in that entry, it is written");
}

static uint64_t first_refusal(const struct reading *reading, const struct workspace *lent,
                              size_t cabinet)
{
    uint64_t number = workspace_refusal(reading, lent);

    return number == 0 && cabinet >= lent->s ? 14 : number;
}

struct planning edit_plan(const struct run *run, const struct reading *reading, size_t cabinet,
                          struct tables *tables)
{
    const uint8_t *sheet = lend_sheet(run);
    struct workspace lent = lend_workspace(run, reading);
    uint64_t *answer = lend_result(run, 3);
    uint64_t expected = first_refusal(reading, &lent, cabinet);
    struct planning editing;

    put_tables(tables, &lent);
    editing.number =
        gz_edit(sheet, run->input->sheet_len, cabinet, lent.output, lent.output_len, lent.costs,
                lent.costs_len, lent.choices, lent.choices_len, answer);
    require_answer(editing.number, expected);
    take_result(run, editing.number, answer, 3, editing.answer);
    require_sheet_kept(run, sheet);
    require_output(run, &lent, editing.number);
    require_entries(run, &lent, lent.needed, "no entry from s * 2^r on");
    require_figures(&editing);
    take_plan(&editing, lent.output, lent.r);
    count_edit(&editing, cabinet >= lent.s);
    if (expected != 0) {
        require_untouched(&lent, tables);
        return editing;
    }
    require_rows(sheet, &lent, cabinet, tables);
    take_tables(tables, &lent);
    require_told(run, reading, &editing, tables);
    return editing;
}
