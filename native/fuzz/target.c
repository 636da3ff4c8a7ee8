/* target.c: the fuzz target: all calls on one input, and what the header says of them together. */
#include "target.h"

#include <string.h>

#include "bill.h"
#include "checker.h"
#include "joints.h"
#include "kept.h"
#include "layout.h"
#include "planner.h"
#include "require.h"
#include "rivals.h"
#include "tally.h"
#include "tidy.h"

struct outcome {
    struct reading reading;
    struct checking checking;
    struct billing billing;
    struct planning planning;
    struct billing written; /* the bill of the plan written, if one is */
    uint64_t tidying;       /* the number that gz_tidy returned */
    struct rivals rivals;   /* those of the plan written, or of none with 12 */
};

/* Checks and bills the plan that the input draws, of whatever length it says. */
static void call_drawn(const struct run *run, struct outcome *outcome)
{
    const uint64_t *counts = outcome->reading.counts;
    size_t places = input_length(run->input, PLAN_LENGTH, (size_t)counts[1]);
    uint16_t plan[MOST_PLACES];
    size_t i;

    for (i = 0; i < places; i++)
        plan[i] = input_cabinet(run->input, i, counts[2]);
    outcome->checking = check_plan(run, &outcome->reading, plan, places);
    outcome->billing = bill_plan(run, &outcome->checking, plan, places);
}

static void bound_header(const struct run *run)
{
    if (run->input->sheet_len >= 4)
        bound_splits(run, word_at(run->input->sheet, 0), word_at(run->input->sheet, 2));
}

/* Writes the copy too, if there is one. */
static struct outcome call_all(const struct run *run, struct copy *copy)
{
    struct outcome outcome;

    outcome.reading = read_sheet(run);
    read_records(run, &outcome.reading);
    if (outcome.reading.number == 0)
        copy_tidy(copy, run->input->sheet);
    outcome.tidying = tidy_sheet(run, &outcome.reading, copy);
    call_drawn(run, &outcome);
    outcome.planning = find_plan(run, &outcome.reading);
    bound_header(run);
    return outcome;
}

static int same_check(const struct checking *one, const struct checking *other)
{
    return one->number == other->number && one->answer[1] == other->answer[1];
}

static int same_bill(const struct billing *one, const struct billing *other)
{
    return one->number == other->number
           && memcmp(one->answer, other->answer, sizeof one->answer) == 0;
}

static void require_same(const struct outcome *one, const struct outcome *other)
{
    require(one->reading.number == other->reading.number
                && same_check(&one->checking, &other->checking)
                && same_bill(&one->billing, &other->billing),
            "It keeps no state");
    require(same_planning(&one->planning, &other->planning),
            "What the tables hold before is of no matter");
}

/* The copy as the sheet of an input that is the same otherwise. */
static void require_as_sheet(const struct run *run, const struct outcome *outcome,
                             const struct copy *copy)
{
    struct input input;
    struct run copied = with_sheet(run, &input, copy->bytes, copy->length);
    struct outcome of_copy;

    if (outcome->tidying != 0)
        return;
    of_copy.reading = read_sheet(&copied);
    require(of_copy.reading.number == 0, "The copy is accepted");
    require(memcmp(of_copy.reading.counts, outcome->reading.counts, 4 * sizeof(uint64_t)) == 0,
            "each block's records in their order (another r, s or q)");
    tidy_sheet(&copied, &of_copy.reading, copy); /* and its own copy is no other */
    call_drawn(&copied, &of_copy);
    require(same_check(&of_copy.checking, &outcome->checking),
            "gz_plan, .. gz_check and gz_bill answer for it as they do for the sheet (gz_check)");
    require(same_bill(&of_copy.billing, &outcome->billing),
            "gz_plan, .. gz_check and gz_bill answer for it as they do for the sheet (gz_bill)");
    of_copy.planning = find_plan(&copied, &of_copy.reading);
    require(same_planning(&of_copy.planning, &outcome->planning),
            "gz_plan, .. gz_check and gz_bill answer for it as they do for the sheet (gz_plan)");
}

/* Bills the plan written too, if there is one. */
static void require_written(const struct run *run, struct outcome *outcome)
{
    size_t r = (size_t)outcome->reading.counts[1];
    struct checking checking;

    if (outcome->planning.number != 0)
        return;
    require(!uses_barred(run->input->sheet, outcome->planning.plan),
            "The plan is valid when no service is on a cabinet that it is barred from");
    require(!uses_joint(run->input->sheet, outcome->planning.plan, r),
            "The plan is valid when .. no service is on a joint");
    checking = check_plan(run, &outcome->reading, outcome->planning.plan, r);
    require(checking.number != 16,
            "The plan is valid when .. no direction of a link has a load above its capacity");
    require(checking.number == 0,
            "On success the first r hold the cabinet of each service (gz_check refuses them)");
    require(checking.answer[1] == outcome->planning.answer[1],
            "gz_plan: answer  group, cost, count (gz_check tells another cost)");
    outcome->written = bill_plan(run, &checking, outcome->planning.plan, r);
}

/* Plans that differ from the plan found, or from all services on the root if none was, by a service
 * on a cabinet that it is barred from, for the last pair and a few others. */
static void check_barred(const struct run *run, const struct outcome *outcome)
{
    size_t pairs = (size_t)outcome->reading.counts[4];
    size_t i;

    for (i = 0; i < 4 && i < pairs; i++) {
        size_t number = i == 0 ? pairs - 1 : input_word(run->input, i) % pairs;
        uint16_t service = field_at(run->input->sheet, BARRED, number, 0);
        uint16_t plan[MOST_SERVICES];

        memcpy(plan, outcome->planning.plan, sizeof plan);
        plan[service] = field_at(run->input->sheet, BARRED, number, 1);
        check_plan(run, &outcome->reading, plan, (size_t)outcome->reading.counts[1]);
    }
}

/* Plans that differ from the plan found, or from all services on the root if none was, by a service
 * on a joint, which the input draws. */
static void check_joints(const struct run *run, const struct outcome *outcome)
{
    size_t r = (size_t)outcome->reading.counts[1];
    size_t i;

    if (outcome->reading.number != 0 || count_joints(run->input->sheet) == 0)
        return;
    for (i = 0; i < r; i++) {
        uint16_t plan[MOST_SERVICES];

        memcpy(plan, outcome->planning.plan, sizeof plan);
        plan[i] = joint_of(run->input->sheet, input_word(run->input, i));
        check_plan(run, &outcome->reading, plan, r);
    }
}

static void count(const struct input *input, const struct outcome *outcome)
{
    tally.inputs++;
    tally.met[READ][outcome->reading.number]++;
    tally.met[CHECK][outcome->checking.number]++;
    tally.met[FIND][outcome->planning.number]++;
    tally.met[TIDY][outcome->tidying]++;
    tally.kinds[TIED] += outcome->rivals.ties > 0;
    tally.kinds[FRAMED] += outcome->checking.overfull_by_framing != 0;
    tally.kinds[IDLE] += outcome->checking.idle_stream != 0;
    count_joint_plan(&outcome->checking);
    if (outcome->reading.number == 0)
        count_joint_road(input->sheet, &outcome->planning, outcome->rivals.kept_off > 0);
    count_number(&outcome->billing);
    count_kinds(&outcome->billing);
    if (outcome->planning.number == 0)
        count_kinds(&outcome->written);
}

int LLVMFuzzerTestOneInput(const uint8_t *data, size_t size)
{
    static struct copy copy;
    struct input input;
    struct run first;
    struct run second;
    struct outcome one;
    struct outcome other;

    input_take_apart(&input, data, size);
    if (input.sheet_len > MOST_SHEET)
        return 0;
    first = run_of(&input, 0);
    second = run_of(&input, 1);
    one = call_all(&first, &copy);
    other = call_all(&second, &copy);
    require_same(&one, &other);
    require_as_sheet(&second, &one, &copy);
    keep_and_edit(&first, &second, &one.reading, &one.planning, &copy);
    require_not_better(&one.planning, &one.checking);
    require_written(&first, &one);
    one.rivals = require_no_rival(&second, &one.reading, &one.planning);
    check_barred(&second, &one);
    check_joints(&second, &one);
    count(&input, &one);
    return 0;
}
