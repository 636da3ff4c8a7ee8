/* faults_bill.c: gz_bill with wrong answers, on purpose. */
#include <string.h>

#include "faults.h"
#include "gazrieksne.h"

/* Leaves the lines as they are and answers this number. */
static void refuse(struct bill *call, uint64_t number, uint64_t group)
{
    memset(call->answer, 0, 4 * sizeof *call->answer);
    call->number = number;
    call->answer[0] = group;
}

/* Bills a plan whatever the tariff is, and whether or not it is valid, if all lines have places. */
static void bill_anyway(struct bill *call)
{
    struct reckoning made;

    reckon_bill(&made, call->sheet.bytes, call->plan, &call->tariff);
    if (made.many <= call->lines_len)
        give_bill(call, &made);
}

/* Answers 22 before this number if the tariff is outside its limits. */
static void answer_before(struct bill *call, uint64_t number)
{
    real_bill(call);
    if (call->number == number && is_outside(&call->tariff))
        refuse(call, 22, 2);
}

static void bill_before_1(struct bill *call)
{
    answer_before(call, 1);
}

static void bill_before_19(struct bill *call)
{
    answer_before(call, 19);
}

static void bill_before_13(struct bill *call)
{
    answer_before(call, 13);
}

static void bill_before_14(struct bill *call)
{
    answer_before(call, 14);
}

static void bill_before_20(struct bill *call)
{
    answer_before(call, 20);
}

static void bill_before_15(struct bill *call)
{
    answer_before(call, 15);
}

static void bill_before_16(struct bill *call)
{
    answer_before(call, 16);
}

/* Answers 22 before this number if there are too few places. */
static void answer_short_before(struct bill *call, uint64_t number)
{
    real_bill(call);
    if (call->number == number && call->lines_len < lines_needed(call->sheet))
        refuse(call, 22, 2);
}

static void bill_short_before_18(struct bill *call)
{
    answer_short_before(call, 18);
}

static void bill_short_before_16(struct bill *call)
{
    answer_short_before(call, 16);
}

/* Bills plans that the check refuses with this number. */
static void bill_refused(struct bill *call, uint64_t number)
{
    real_bill(call);
    if (call->number == number && !is_outside(&call->tariff))
        bill_anyway(call);
}

static void bill_barred(struct bill *call)
{
    bill_refused(call, 20);
}

static void bill_room(struct bill *call)
{
    bill_refused(call, 15);
}

static void bill_links(struct bill *call)
{
    bill_refused(call, 16);
}

/* The figures of the tariff at their limits are refused. */
static void bill_block_limit(struct bill *call)
{
    call->tariff.block_price += call->tariff.block_price == GZ_MAX_PRICE;
    real_bill(call);
}

static void bill_slot_limit(struct bill *call)
{
    call->tariff.slot_price += call->tariff.slot_price == GZ_MAX_PRICE;
    real_bill(call);
}

static void bill_rate_limit(struct bill *call)
{
    call->tariff.tax_rate += call->tariff.tax_rate == GZ_MAX_RATE;
    real_bill(call);
}

/* Bills a plan that is refused with 22, if the tariff has its other figures within their limits. */
static void bill_untested(struct bill *call, struct tariff others)
{
    real_bill(call);
    if (call->number == 22 && !is_outside(&others))
        bill_anyway(call);
}

static void bill_any_block_price(struct bill *call)
{
    struct tariff others = {0, call->tariff.slot_price, call->tariff.tax_rate};

    bill_untested(call, others);
}

static void bill_any_slot_price(struct bill *call)
{
    struct tariff others = {call->tariff.block_price, 0, call->tariff.tax_rate};

    bill_untested(call, others);
}

static void bill_any_rate(struct bill *call)
{
    struct tariff others = {call->tariff.block_price, call->tariff.slot_price, 0};

    bill_untested(call, others);
}

static void bill_rate_1001(struct bill *call)
{
    if (call->tariff.tax_rate == GZ_MAX_RATE + 1)
        bill_any_rate(call);
    else
        real_bill(call);
}

static void bill_rate_below_0(struct bill *call)
{
    if (call->tariff.tax_rate > INT64_MAX)
        bill_any_rate(call);
    else
        real_bill(call);
}

static void bill_block_price_cut(struct bill *call)
{
    call->tariff.block_price = (uint32_t)call->tariff.block_price;
    real_bill(call);
}

static void bill_slot_price_cut(struct bill *call)
{
    call->tariff.slot_price = (uint16_t)call->tariff.slot_price;
    real_bill(call);
}

static void bill_one_more(struct bill *call)
{
    if (counts_of(call->sheet).number == 0 && call->lines_len == lines_needed(call->sheet)
        && call->lines_len > 0)
        call->lines_len--;
    real_bill(call);
}

static void bill_most_refused(struct bill *call)
{
    if (counts_of(call->sheet).number == 0 && lines_needed(call->sheet) == GZ_MOST_LINES)
        call->lines_len = 0;
    real_bill(call);
}

static void bill_none_refused(struct bill *call)
{
    real_bill(call);
    if (call->number == 0 && call->lines_len == 0)
        refuse(call, 22, 2);
}

static void bill_unwritten(struct bill *call)
{
    uint64_t held = call->answer[3];

    real_bill(call);
    if (call->number == 18)
        call->answer[3] = held;
}

static void bill_unwritten_22(struct bill *call)
{
    uint64_t held = call->answer[2];

    real_bill(call);
    if (call->number == 22)
        call->answer[2] = held;
}

static void bill_tax_unwritten(struct bill *call)
{
    uint64_t held = call->answer[2];

    real_bill(call);
    if (call->number == 0 && call->answer[2] == 0)
        call->answer[2] = held;
}

static void bill_net_refused(struct bill *call)
{
    struct reckoning made;

    real_bill(call);
    if (call->number == 22 && !is_outside(&call->tariff)) {
        reckon_bill(&made, call->sheet.bytes, call->plan, &call->tariff);
        call->answer[1] = made.net;
    }
}

static void bill_group(struct bill *call)
{
    real_bill(call);
    if (call->number == 22)
        call->answer[0] = 4;
}

static void bill_plan_group(struct bill *call)
{
    real_bill(call);
    if (call->number == 16)
        call->answer[0] = 2;
}

static void bill_number(struct bill *call)
{
    real_bill(call);
    if (call->number == 22)
        call->number = 21;
}

static void bill_state(struct bill *call)
{
    static uint64_t calls;

    real_bill(call);
    if (call->number == 0)
        call->answer[3] += ++calls % 2;
}

const struct fault bill_faults[] = {
    {.what = "gz_bill answers 22 before 1", .bill = bill_before_1},
    {.what = "gz_bill answers 22 before 19", .bill = bill_before_19},
    {.what = "gz_bill answers 22 before 13", .bill = bill_before_13},
    {.what = "gz_bill answers 22 before 14", .bill = bill_before_14},
    {.what = "gz_bill answers 22 before 20", .bill = bill_before_20},
    {.what = "gz_bill answers 22 before 15", .bill = bill_before_15},
    {.what = "gz_bill answers 22 before 16", .bill = bill_before_16},
    {.what = "gz_bill answers 22 for too few places before 18", .bill = bill_short_before_18},
    {.what = "gz_bill answers 22 for too few places before 16", .bill = bill_short_before_16},
    {.what = "gz_bill accepts a barred pair", .bill = bill_barred},
    {.what = "gz_bill accepts an overfull cabinet", .bill = bill_room},
    {.what = "gz_bill accepts an overfull link", .bill = bill_links},
    {.what = "gz_bill refuses a block price of 10,000", .bill = bill_block_limit},
    {.what = "gz_bill refuses a slot price of 10,000", .bill = bill_slot_limit},
    {.what = "gz_bill refuses a tax rate of 1,000", .bill = bill_rate_limit},
    {.what = "gz_bill accepts any block price", .bill = bill_any_block_price},
    {.what = "gz_bill accepts any slot price", .bill = bill_any_slot_price},
    {.what = "gz_bill accepts any tax rate", .bill = bill_any_rate},
    {.what = "gz_bill accepts a tax rate of 1,001", .bill = bill_rate_1001},
    {.what = "gz_bill accepts a tax rate from 2^63 on", .bill = bill_rate_below_0},
    {.what = "gz_bill takes the block price in 32 bits", .bill = bill_block_price_cut},
    {.what = "gz_bill takes the slot price in 16 bits", .bill = bill_slot_price_cut},
    {.what = "gz_bill demands one place more", .bill = bill_one_more},
    {.what = "gz_bill answers 22 for the most lines", .bill = bill_most_refused},
    {.what = "gz_bill answers 22 for no lines", .bill = bill_none_refused},
    {.what = "gz_bill leaves the total unwritten with 18", .bill = bill_unwritten},
    {.what = "gz_bill leaves the tax unwritten with 22", .bill = bill_unwritten_22},
    {.what = "gz_bill leaves a tax of 0 unwritten", .bill = bill_tax_unwritten},
    {.what = "gz_bill tells the net with 22", .bill = bill_net_refused},
    {.what = "gz_bill tells the plan writer's group with 22", .bill = bill_group},
    {.what = "gz_bill tells the lender's group with 16", .bill = bill_plan_group},
    {.what = "gz_bill answers 21 for 22", .bill = bill_number},
    {.what = "gz_bill adds 1 to every other total", .bill = bill_state},
    {.what = NULL},
};
