/* faults_joints.c: gz_check and gz_bill, which take joints wrongly on purpose. */
#include "checker.h"
#include "faults.h"
#include "joints.h"
#include "layout.h"
#include "loads.h"
#include "spliced.h"

static void answer_with(struct check *call, uint64_t number, uint64_t group, uint64_t cost)
{
    call->number = number;
    call->answer[0] = group;
    call->answer[1] = cost;
}

/* True if some service of a plan is on a cabinet that is taken for a joint. */
static int is_on(const uint8_t *sheet, const uint16_t *plan, size_t places, splices *splices)
{
    size_t i;

    for (i = 0; i < places; i++)
        if (splices(sheet, plan[i]))
            return 1;
    return 0;
}

/* Answers as if no joint stood in the way. */
static void pass_joints(struct check *call)
{
    struct loads loads;

    reckon_loads(&loads, call->sheet.bytes, call->plan);
    if (has_overfull_line(call->sheet.bytes, &loads, FRAMING))
        answer_with(call, 16, 4, 0);
    else
        answer_with(call, 0, 0, cost_of(call->sheet.bytes, call->plan, &loads));
}

/* Where nothing before 15 applies, these cabinets are the joints. */
static void check_by(struct check *call, splices *splices)
{
    real_check(call);
    if (call->number != 0 && call->number != 15 && call->number != 16)
        return;
    if (is_overfull(call->sheet.bytes, call->plan, call->plan_len)
        || is_on(call->sheet.bytes, call->plan, call->plan_len, splices))
        answer_with(call, 15, 4, 0);
    else
        pass_joints(call);
}

static void check_no_joint(struct check *call)
{
    check_by(call, no_joint);
}

static void check_only_root(struct check *call)
{
    check_by(call, only_root);
}

static void check_but_root(struct check *call)
{
    check_by(call, but_root);
}

static void check_but_middle(struct check *call)
{
    check_by(call, but_middle);
}

static void check_but_leaves(struct check *call)
{
    check_by(call, but_leaves);
}

static void check_price_zero(struct check *call)
{
    check_by(call, of_price_zero);
}

static void check_capacity_one(struct check *call)
{
    check_by(call, of_capacity_one);
}

/* True if one of the services that the plan gives a cabinet is on a joint, and none is overfull. */
static int is_on_joint(const struct check *call)
{
    struct counts counts = counts_of(call->sheet);
    size_t services = call->plan_len < counts.r ? call->plan_len : counts.r;

    return counts.number == 0 && uses_joint(call->sheet.bytes, call->plan, services)
           && !is_overfull(call->sheet.bytes, call->plan, services);
}

/* True if the plan is refused with 15 for joints alone. */
static int is_kept_off(const struct check *call)
{
    return call->number == 15 && is_on_joint(call);
}

/* Joints are looked for among so many of the places alone, from the first one on. */
static void check_places(struct check *call, size_t first, size_t last)
{
    real_check(call);
    if (is_kept_off(call) && !uses_joint(call->sheet.bytes, call->plan + first, last - first))
        pass_joints(call);
}

static void check_without_first(struct check *call)
{
    check_places(call, call->plan_len > 0, call->plan_len);
}

static void check_without_last(struct check *call)
{
    check_places(call, 0, call->plan_len - (call->plan_len > 0));
}

/* Gives another number where joints alone are refused. */
static void check_number(struct check *call, uint64_t number)
{
    real_check(call);
    if (is_kept_off(call))
        call->number = number;
}

static void check_as_number(struct check *call)
{
    check_number(call, 14);
}

static void check_as_barred(struct check *call)
{
    check_number(call, 20);
}

static void check_as_link(struct check *call)
{
    check_number(call, 16);
}

/* Gives 15 for a joint in place of a number that comes before it. */
static void check_before(struct check *call, uint64_t number)
{
    real_check(call);
    if (call->number == number && is_on_joint(call))
        call->number = 15;
}

static void check_before_length(struct check *call)
{
    check_before(call, 13);
}

static void check_before_number(struct check *call)
{
    check_before(call, 14);
}

static void check_before_bars(struct check *call)
{
    check_before(call, 20);
}

static void check_after_links(struct check *call)
{
    uint64_t answer[2];
    struct check passed = *call;

    passed.answer = answer;
    real_check(call);
    if (!is_kept_off(call))
        return;
    pass_joints(&passed);
    if (passed.number == 16)
        call->number = 16;
}

/* Refuses a valid plan with this number if a stream runs through a joint. */
static void check_stops(struct check *call, uint64_t number)
{
    struct loads loads;

    real_check(call);
    if (call->number != 0)
        return;
    reckon_loads(&loads, call->sheet.bytes, call->plan);
    if (crosses_joint(call->sheet.bytes, &loads))
        answer_with(call, number, 4, 0);
}

static void check_stops_as_link(struct check *call)
{
    check_stops(call, 16);
}

static void check_stops_as_joint(struct check *call)
{
    check_stops(call, 15);
}

static void check_group(struct check *call)
{
    real_check(call);
    if (is_kept_off(call))
        call->answer[0] = 1;
}

static void check_cost(struct check *call)
{
    real_check(call);
    if (is_kept_off(call)) {
        pass_joints(call);
        call->number = 15;
        call->answer[0] = 4;
    }
}

/* True if joints alone keep the plan of a bill off. */
static int is_bill_kept_off(const struct bill *call)
{
    struct check check = {call->sheet, call->plan, call->plan_len, NULL, call->number};

    return is_kept_off(&check);
}

static void bill_no_joint(struct bill *call)
{
    struct reckoning made;
    struct loads loads;

    real_bill(call);
    if (!is_bill_kept_off(call) || is_outside(&call->tariff)
        || call->lines_len < lines_needed(call->sheet))
        return;
    reckon_loads(&loads, call->sheet.bytes, call->plan);
    if (has_overfull_line(call->sheet.bytes, &loads, FRAMING))
        return;
    reckon_bill(&made, call->sheet.bytes, call->plan, &call->tariff);
    give_bill(call, &made);
}

static void bill_tariff_first(struct bill *call)
{
    real_bill(call);
    if (is_bill_kept_off(call) && is_outside(&call->tariff)) {
        call->number = 22;
        call->answer[0] = 2;
    }
}

const struct fault joint_faults[] = {
    {.what = "gz_check takes demand 0 on a joint", .check = check_no_joint},
    {.what = "gz_check takes the root alone for a joint", .check = check_only_root},
    {.what = "gz_check takes demand 0 on a joint that is the root", .check = check_but_root},
    {.what = "gz_check takes demand 0 on a joint in the middle", .check = check_but_middle},
    {.what = "gz_check takes demand 0 on a joint at a leaf", .check = check_but_leaves},
    {.what = "gz_check takes price 0 for a joint", .check = check_price_zero},
    {.what = "gz_check takes capacity 1 for a joint too", .check = check_capacity_one},
    {.what = "gz_check takes service 0 on a joint", .check = check_without_first},
    {.what = "gz_check takes service r - 1 on a joint", .check = check_without_last},
    {.what = "gz_check answers 14 for a joint", .check = check_as_number},
    {.what = "gz_check answers 20 for a joint", .check = check_as_barred},
    {.what = "gz_check answers 16 for a joint", .check = check_as_link},
    {.what = "gz_check answers 15 for a joint before 13", .check = check_before_length},
    {.what = "gz_check answers 15 for a joint before 14", .check = check_before_number},
    {.what = "gz_check answers 15 for a joint before 20", .check = check_before_bars},
    {.what = "gz_check answers 16 before 15 for a joint", .check = check_after_links},
    {.what = "gz_check answers 16 for a stream through a joint", .check = check_stops_as_link},
    {.what = "gz_check answers 15 for a stream through a joint", .check = check_stops_as_joint},
    {.what = "gz_check tells the sheet writer's group for a joint", .check = check_group},
    {.what = "gz_check tells a cost with 15 for a joint", .check = check_cost},
    {.what = "gz_bill bills demand 0 on a joint", .bill = bill_no_joint},
    {.what = "gz_bill answers 22 before 15 for a joint", .bill = bill_tariff_first},
    {.what = NULL},
};
