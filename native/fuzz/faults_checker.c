/* faults_checker.c: gz_check, wrong on purpose. */
#include "faults.h"
#include "input.h"
#include "layout.h"

static void check_number(struct check *call)
{
    real_check(call);
    if (call->number == 5)
        call->number = 4;
}

static void check_longer(struct check *call)
{
    size_t r = counts_of(call->sheet).r;

    if (call->plan_len > r)
        call->plan_len = r;
    real_check(call);
}

static void check_cabinet_s(struct check *call)
{
    real_check(call);
    if (call->number == 14)
        call->number = 15;
}

static void check_length_last(struct check *call)
{
    struct counts counts = counts_of(call->sheet);
    size_t i;

    real_check(call);
    for (i = 0; i < call->plan_len && call->number == 13; i++)
        if (call->plan[i] >= counts.s)
            call->number = 14;
}

static void check_room(struct check *call)
{
    real_check(call);
    if (call->number == 15) {
        call->sheet = copy_sheet(call->sheet);
        set_cabinets(call->sheet, 0, 1, 10000);
        real_check(call);
    }
}

static void check_links(struct check *call)
{
    real_check(call);
    if (call->number == 16) {
        call->sheet = copy_sheet(call->sheet);
        set_cabinets(call->sheet, 1, 3, 10000);
        set_cabinets(call->sheet, 1, 5, 10000);
        real_check(call);
    }
}

static void check_refused_valid(struct check *call)
{
    real_check(call);
    if (call->number == 0 && call->answer[1] > 0) {
        call->number = 16;
        call->answer[0] = 4;
        call->answer[1] = 0;
    }
}

static void check_cost(struct check *call)
{
    real_check(call);
    if (call->number == 0 && call->answer[1] > 0)
        call->answer[1]++;
}

static void check_cost_refused(struct check *call)
{
    real_check(call);
    if (call->number == 16)
        call->answer[1] = 1;
}

static void check_unwritten(struct check *call)
{
    uint64_t held = call->answer[1];

    real_check(call);
    if (call->number == 0 && call->answer[1] == 0)
        call->answer[1] = held;
}

static void check_state(struct check *call)
{
    static uint64_t calls;

    real_check(call);
    if (call->number == 0)
        call->answer[1] += ++calls % 2;
}

static void check_reads_past(struct check *call)
{
    seen = call->plan[call->plan_len];
    real_check(call);
}

static void check_writes_plan(struct check *call)
{
    real_check(call);
    if (call->number == 15)
        ((uint16_t *)call->plan)[0] = 0;
}

static void check_barred_accepted(struct check *call)
{
    real_check(call);
    if (call->number == 20) {
        call->sheet = copy_unbarred(call->sheet);
        real_check(call);
    }
}

/* Answers this number for 20 if it applies too. */
static void answer_before_barred(struct check *call, uint64_t number)
{
    uint64_t answer[2];
    struct check unbarred = *call;

    real_check(call);
    if (call->number != 20)
        return;
    unbarred.sheet = copy_unbarred(call->sheet);
    unbarred.answer = answer;
    real_check(&unbarred);
    if (unbarred.number == number)
        call->number = number;
}

static void check_room_first(struct check *call)
{
    answer_before_barred(call, 15);
}

static void check_links_first(struct check *call)
{
    answer_before_barred(call, 16);
}

static void check_barred_first(struct check *call)
{
    struct counts counts = counts_of(call->sheet);
    size_t i;

    real_check(call);
    for (i = 0; i < counts.pairs && call->number == 14; i++)
        if (call->plan[field_at(call->sheet.bytes, BARRED, i, 0)]
            == field_at(call->sheet.bytes, BARRED, i, 1))
            call->number = 20;
}

/* Leaves out the last pair. */
static void check_fewer_pairs(struct check *call)
{
    size_t pairs = counts_of(call->sheet).pairs;

    if (pairs > 0) {
        call->sheet = copy_sheet(call->sheet);
        put_word(other_sheet, offset_of(other_sheet, BARRED), (unsigned)pairs - 1);
    }
    real_check(call);
}

static void check_pairs_swapped(struct check *call)
{
    struct counts counts = counts_of(call->sheet);
    size_t i;

    for (i = 0; i < counts.pairs; i++) {
        size_t cabinet = field_at(call->sheet.bytes, BARRED, i, 1);
        if (cabinet < counts.r && call->plan_len == counts.r
            && call->plan[cabinet] == field_at(call->sheet.bytes, BARRED, i, 0)) {
            real_check(call);
            return;
        }
    }
    check_barred_accepted(call);
}

static void check_barred_group(struct check *call)
{
    real_check(call);
    if (call->number == 20)
        call->answer[0] = 1;
}

static void check_barred_cost(struct check *call)
{
    real_check(call);
    if (call->number == 20)
        call->answer[1] = 1;
}

static void check_length_first(struct check *call)
{
    real_check(call);
    if (call->number == 18 && call->plan_len != word_at(call->sheet.bytes, 0)) {
        call->number = 13;
        call->answer[0] = 4;
    }
}

const struct fault checker_faults[] = {
    {.what = "gz_check answers 4 for 5", .check = check_number},
    {.what = "gz_check takes a plan that is too long", .check = check_longer},
    {.what = "gz_check answers 15 for 14", .check = check_cabinet_s},
    {.what = "gz_check answers 14 before 13", .check = check_length_last},
    {.what = "gz_check accepts an overfull cabinet", .check = check_room},
    {.what = "gz_check accepts an overfull link", .check = check_links},
    {.what = "gz_check answers 16 for valid plans", .check = check_refused_valid},
    {.what = "gz_check answers a cost one too high", .check = check_cost},
    {.what = "gz_check tells a cost with 16", .check = check_cost_refused},
    {.what = "gz_check leaves a cost of 0 unwritten", .check = check_unwritten},
    {.what = "gz_check adds 1 to every other cost", .check = check_state},
    {.what = "gz_check reads the place after the plan", .check = check_reads_past},
    {.what = "gz_check changes the plan with 15", .check = check_writes_plan},
    {.what = "gz_check accepts a barred pair", .check = check_barred_accepted},
    {.what = "gz_check answers 15 before 20", .check = check_room_first},
    {.what = "gz_check answers 16 before 20", .check = check_links_first},
    {.what = "gz_check answers 20 before 14", .check = check_barred_first},
    {.what = "gz_check leaves out the last pair", .check = check_fewer_pairs},
    {.what = "gz_check takes pairs the wrong way round", .check = check_pairs_swapped},
    {.what = "gz_check tells the sheet writer's group with 20", .check = check_barred_group},
    {.what = "gz_check tells a cost with 20", .check = check_barred_cost},
    {.what = "gz_check answers 13 before 18", .check = check_length_first},
    {.what = NULL},
};
