/* checker.c: gz_check on lent memory, with what the header says of it. */
#include "checker.h"

#include <string.h>

#include "gazrieksne.h"
#include "joints.h"
#include "layout.h"
#include "loads.h"
#include "refusals.h"
#include "require.h"

static int all_cabinets_there(uint64_t s, const uint16_t *plan, size_t places)
{
    size_t i;

    for (i = 0; i < places; i++)
        if (plan[i] >= s)
            return 0;
    return 1;
}

int uses_barred(const uint8_t *sheet, const uint16_t *plan)
{
    size_t i;

    for (i = 0; i < count_of(sheet, BARRED); i++)
        if (plan[field_at(sheet, BARRED, i, 0)] == field_at(sheet, BARRED, i, 1))
            return 1;
    return 0;
}

/* The services that so many places give a cabinet. */
static size_t services_of(const uint8_t *sheet, size_t places)
{
    return places < count_of(sheet, SERVICES) ? places : count_of(sheet, SERVICES);
}

int is_overfull(const uint8_t *sheet, const uint16_t *plan, size_t places)
{
    size_t many = services_of(sheet, places);
    size_t i;
    size_t other;

    for (i = 0; i < many; i++) {
        uint64_t held = 0;
        for (other = 0; other < many; other++)
            if (plan[other] == plan[i])
                held += field_at(sheet, SERVICES, other, 0);
        if (plan[i] < count_of(sheet, CABINETS) && held > field_at(sheet, CABINETS, plan[i], 1))
            return 1;
    }
    return 0;
}

/* The number that must be given, as far as links do not matter. */
static uint64_t first_refusal(const struct run *run, const struct reading *reading,
                              const uint16_t *plan, size_t places)
{
    if (reading->number != 0)
        return reading->number;
    if (places != reading->counts[1])
        return 13;
    if (!all_cabinets_there(reading->counts[2], plan, places))
        return 14;
    if (uses_barred(run->input->sheet, plan))
        return 20;
    if (is_overfull(run->input->sheet, plan, places) || uses_joint(run->input->sheet, plan, places))
        return 15;
    return 0;
}

/* What the links say of a plan that nothing but joints stands in the way of. */
static void expect_links(struct checking *expected, const uint8_t *sheet, const uint16_t *plan)
{
    struct loads loads;
    int overfull;

    reckon_loads(&loads, sheet, plan);
    overfull = has_overfull_line(sheet, &loads, FRAMING);
    if (expected->on_joint) {
        expected->valid_otherwise = !overfull;
        expected->cost_otherwise = cost_of(sheet, plan, &loads);
    } else if (overfull) {
        expected->number = 16;
        expected->overfull_by_framing = !has_overfull_line(sheet, &loads, 0);
    } else {
        expected->answer[1] = cost_of(sheet, plan, &loads);
        expected->idle_stream = has_idle_stream(sheet, &loads);
        expected->through_joint = crosses_joint(sheet, &loads);
    }
}

struct checking expect_check(const struct run *run, const struct reading *reading,
                             const uint16_t *plan, size_t places)
{
    const uint8_t *sheet = run->input->sheet;
    struct checking expected;

    memset(&expected, 0, sizeof expected);
    expected.number = first_refusal(run, reading, plan, places);
    if (reading->number != 0)
        return expected;
    expected.on_joint = uses_joint(sheet, plan, services_of(sheet, places))
                        && !is_overfull(sheet, plan, places);
    if (expected.number == 0 || (expected.number == 15 && expected.on_joint))
        expect_links(&expected, sheet, plan);
    return expected;
}

struct checking check_plan(const struct run *run, const struct reading *reading,
                           const uint16_t *plan, size_t places)
{
    const uint8_t *sheet = lend_sheet(run);
    const uint16_t *lent = lend_plan(run, plan, places);
    uint64_t *answer = lend_result(run, 2);
    struct checking checking = expect_check(run, reading, plan, places);
    uint64_t cost = checking.answer[1];
    uint64_t number = gz_check(sheet, run->input->sheet_len, lent, places, answer);

    require_number(number, checking.number);
    take_result(run, number, answer, 2, checking.answer);
    require(number == 0 || checking.answer[1] == 0, "gz_check: the cost is 0 in a refusal");
    require(checking.answer[1] == cost,
            "Its cost is demand times price, summed over the services (by their cabinets) and over "
            "each link of each stream's path (by the direction taken); framing is not priced");
    require_sheet_kept(run, sheet);
    require(memcmp(lent, plan, places * sizeof *plan) == 0,
            "A call writes nothing but what is told with it (plan)");
    return checking;
}
