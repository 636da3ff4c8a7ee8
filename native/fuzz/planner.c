/* planner.c: gz_plan and gz_bound on lent memory, with what the header says of them. */
#include "planner.h"

#include <string.h>

#include "gazrieksne.h"
#include "refusals.h"
#include "require.h"
#include "workspace.h"

static void require_tables(const struct run *run, const struct workspace *lent, uint64_t number)
{
    if (number != 0 && number != 12) {
        require_entries(run, lent, 0, "after any other refusal all entries are as before");
        return;
    }
    require(is_clear(lent->costs, lent->needed * sizeof *lent->costs)
                && is_clear(lent->choices, lent->needed * sizeof *lent->choices),
            "After success and after 12 their first s * 2^r entries are 0");
    require_entries(run, lent, lent->needed, "and all others as before");
}

static void require_figures(const struct run *run, const struct workspace *lent,
                            const struct planning *planning)
{
    uint64_t count = planning->answer[2];

    require(planning->number == 0 || planning->answer[1] == 0,
            "gz_plan: The cost is 0 in a refusal");
    if (is_taken(planning))
        require(count <= bound_splits(run, lent->r, lent->s),
                "The count .. is never above the bound that gz_bound gives");
    else
        require(count == 0, "The count is .. told on success and with 12, else 0");
}

struct planning find_plan(const struct run *run, const struct reading *reading)
{
    const uint8_t *sheet = lend_sheet(run);
    struct workspace lent = lend_workspace(run, reading);
    uint64_t *answer = lend_result(run, 3);
    uint64_t expected = workspace_refusal(reading, &lent);
    struct planning planning;

    planning.number = gz_plan(sheet, run->input->sheet_len, lent.output, lent.output_len,
                              lent.costs, lent.costs_len, lent.choices, lent.choices_len, answer);
    if (expected != 0 || planning.number != 12)
        require_number(planning.number, expected);
    take_result(run, planning.number, answer, 3, planning.answer);
    require_sheet_kept(run, sheet);
    require_output(run, &lent, planning.number);
    require_tables(run, &lent, planning.number);
    take_plan(&planning, lent.output, lent.r);
    require_figures(run, &lent, &planning);
    return planning;
}

void take_plan(struct planning *planning, const uint16_t *output, size_t r)
{
    memset(planning->plan, 0, sizeof planning->plan);
    if (planning->number == 0)
        memcpy(planning->plan, output, r * sizeof *output);
}

int is_taken(const struct planning *planning)
{
    return planning->number == 0 || planning->number == 12;
}

int same_planning(const struct planning *one, const struct planning *other)
{
    return one->number == other->number
           && memcmp(one->answer, other->answer, sizeof one->answer) == 0
           && memcmp(one->plan, other->plan, sizeof one->plan) == 0;
}

uint64_t bound_splits(const struct run *run, size_t services, size_t cabinets)
{
    int within = services <= MOST_SERVICES && cabinets >= 1 && cabinets <= MOST_CABINETS;
    uint64_t bound = within ? cabinets - 1 : 0;
    uint64_t *lent = lend_result(run, 2);
    uint64_t number = gz_bound(services, cabinets, lent);
    uint64_t answer[2];
    size_t i;

    for (i = 0; i < services && within; i++)
        bound *= 3;
    require(number == (within ? 0 : 2), "gz_bound: Returns 0, or 2 if .. outside the limits");
    take_result(run, number, lent, 2, answer);
    require(answer[1] == bound, "Gives the bound on the splits weighed, (s - 1) * 3^r");
    return bound;
}
