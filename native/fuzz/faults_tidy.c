/* faults_tidy.c: gz_tidy with wrong answers and in memory that it must not touch, and calls that
 * answer otherwise for the copy, on purpose. */
#include <string.h>

#include "faults.h"
#include "gazrieksne.h"
#include "layout.h"
#include "lent.h"

/* The right copy, whatever output was lent; its length is 0 if the sheet is refused. */
static size_t copy_aside(const struct tidy *call, uint8_t copy[GZ_LONGEST_COPY])
{
    uint64_t answer[2];
    struct tidy aside = {call->sheet, copy, GZ_LONGEST_COPY, answer, 0};

    real_tidy(&aside);
    return (size_t)answer[1];
}

/* Leaves the output as it is and answers 21. */
static void refuse(struct tidy *call)
{
    call->number = 21;
    call->answer[0] = 2;
    call->answer[1] = 0;
}

static void tidy_short_first(struct tidy *call)
{
    real_tidy(call);
    if (call->number == 19 && call->output_len < HEADER)
        refuse(call);
}

static void tidy_exact_refused(struct tidy *call)
{
    uint8_t copy[GZ_LONGEST_COPY];

    if (call->output_len > 0 && copy_aside(call, copy) == call->output_len)
        call->output_len--;
    real_tidy(call);
}

static void tidy_longest_refused(struct tidy *call)
{
    uint8_t copy[GZ_LONGEST_COPY];

    if (copy_aside(call, copy) == GZ_LONGEST_COPY)
        refuse(call);
    else
        real_tidy(call);
}

static void tidy_one_short(struct tidy *call)
{
    uint8_t copy[GZ_LONGEST_COPY];
    size_t length = copy_aside(call, copy);

    real_tidy(call);
    if (call->number == 21 && call->output_len + 1 == length) {
        memcpy(call->output, copy, call->output_len);
        call->number = 0;
        call->answer[0] = 0;
        call->answer[1] = length;
    }
}

static void tidy_part(struct tidy *call)
{
    uint8_t copy[GZ_LONGEST_COPY];

    copy_aside(call, copy);
    real_tidy(call);
    if (call->number == 21)
        memcpy(call->output, copy, call->output_len < HEADER ? call->output_len : HEADER);
}

static void tidy_touches_refused(struct tidy *call)
{
    real_tidy(call);
    if (call->number == 19 && call->output_len >= HEADER)
        memcpy(call->output, call->sheet.bytes, HEADER);
}

static void tidy_byte_behind(struct tidy *call)
{
    real_tidy(call);
    if (call->number == 0 && call->output_len > call->answer[1])
        call->output[call->answer[1]] = 0;
}

static void tidy_clears_rest(struct tidy *call)
{
    real_tidy(call);
    if (call->number == 0)
        memset(call->output + call->answer[1], 0, call->output_len - (size_t)call->answer[1]);
}

static void tidy_past_output(struct tidy *call)
{
    real_tidy(call);
    if (call->number == 0)
        call->output[call->output_len] = 0;
}

static void tidy_before_output(struct tidy *call)
{
    seen = *(call->output - 1);
    real_tidy(call);
}

/* Relies on an output of zeros. */
static void tidy_skips_zeros(struct tidy *call)
{
    uint8_t copy[GZ_LONGEST_COPY];
    uint8_t held[GZ_LONGEST_COPY + MOST_LENGTH_ADDED];
    size_t i;

    memcpy(held, call->output, call->output_len);
    copy_aside(call, copy);
    real_tidy(call);
    for (i = 0; i < call->answer[1]; i++)
        if (copy[i] == 0)
            call->output[i] = held[i];
}

static void tidy_writes_sheet(struct tidy *call)
{
    real_tidy(call);
    if (call->number == 0)
        memcpy((uint8_t *)call->sheet.bytes, call->output, HEADER);
}

static void tidy_length_needed(struct tidy *call)
{
    uint8_t copy[GZ_LONGEST_COPY];

    real_tidy(call);
    if (call->number == 21)
        call->answer[1] = copy_aside(call, copy);
}

static void tidy_length_sheet(struct tidy *call)
{
    real_tidy(call);
    if (call->number == 0)
        call->answer[1] = call->sheet.length;
}

static void tidy_unwritten(struct tidy *call)
{
    uint64_t held = call->answer[1];

    real_tidy(call);
    if (call->number == 18)
        call->answer[1] = held;
}

static void tidy_group(struct tidy *call)
{
    real_tidy(call);
    if (call->number == 21)
        call->answer[0] = 1;
}

static void tidy_number(struct tidy *call)
{
    real_tidy(call);
    if (call->number == 21)
        call->number = 10;
}

int has_repeat(struct sheet sheet)
{
    size_t pairs = counts_of(sheet).pairs;
    size_t i;

    for (i = 0; i + 1 < pairs; i++)
        if (memcmp(sheet.bytes + place_of(sheet.bytes, BARRED, i, 0),
                   sheet.bytes + place_of(sheet.bytes, BARRED, pairs - 1, 0), 4) == 0)
            return 1;
    return 0;
}

static void plan_repeat(struct plan *call)
{
    real_plan(call);
    if (call->answer[2] > 0 && has_repeat(call->sheet))
        call->answer[2]--;
}

/* The cost of the cheapest plans of an accepted sheet; 0 if there is none. */
static uint64_t least_cost(struct sheet sheet)
{
    static uint64_t costs[MOST_ENTRIES];
    static uint16_t choices[MOST_ENTRIES];
    uint16_t output[MOST_SERVICES];
    uint64_t answer[3];
    struct plan plan = {sheet, output, MOST_SERVICES, costs, MOST_ENTRIES, choices, MOST_ENTRIES,
                        answer, 0};

    real_plan(&plan);
    return answer[1];
}

static void check_repeat(struct check *call)
{
    real_check(call);
    if (call->number == 0 && has_repeat(call->sheet)
        && call->answer[1] > least_cost(call->sheet))
        call->answer[1]++;
}

const struct fault tidy_faults[] = {
    {.what = "gz_tidy answers 21 before 19", .tidy = tidy_short_first},
    {.what = "gz_tidy answers 21 for an output as long as the copy", .tidy = tidy_exact_refused},
    {.what = "gz_tidy answers 21 for the longest copy", .tidy = tidy_longest_refused},
    {.what = "gz_tidy takes an output one byte short", .tidy = tidy_one_short},
    {.what = "gz_tidy writes part of the copy with 21", .tidy = tidy_part},
    {.what = "gz_tidy writes the header with 19", .tidy = tidy_touches_refused},
    {.what = "gz_tidy writes the byte after the copy", .tidy = tidy_byte_behind},
    {.what = "gz_tidy clears the bytes after the copy", .tidy = tidy_clears_rest},
    {.what = "gz_tidy writes the byte after the output", .tidy = tidy_past_output},
    {.what = "gz_tidy reads the byte before the output", .tidy = tidy_before_output},
    {.what = "gz_tidy leaves bytes of 0 unwritten", .tidy = tidy_skips_zeros},
    {.what = "gz_tidy changes the sheet", .tidy = tidy_writes_sheet},
    {.what = "gz_tidy tells the length needed with 21", .tidy = tidy_length_needed},
    {.what = "gz_tidy tells the sheet's length", .tidy = tidy_length_sheet},
    {.what = "gz_tidy leaves the length unwritten with 18", .tidy = tidy_unwritten},
    {.what = "gz_tidy tells the sheet writer's group with 21", .tidy = tidy_group},
    {.what = "gz_tidy answers 10 for 21", .tidy = tidy_number},
    {.what = "gz_plan tells a lower count if a pair stands twice", .plan = plan_repeat},
    {.what = "gz_check tells a dear plan dearer if a pair stands twice", .check = check_repeat},
    {.what = NULL},
};
