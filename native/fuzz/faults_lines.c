/* faults_lines.c: gz_bill with lines left out or written in a refusal, and in memory that it must
 * not touch, on purpose. */
#include <string.h>

#include "faults.h"
#include "gazrieksne.h"
#include "layout.h"

/* Writes as many of the right lines as there are places for, and leaves them in the bill made. */
static void write_part(const struct bill *call, struct reckoning *made)
{
    reckon_bill(made, call->sheet.bytes, call->plan, &call->tariff);
    if (made->many > call->lines_len)
        made->many = call->lines_len;
    memcpy(call->lines, made->lines, made->many * sizeof *call->lines);
}

static void bill_one_short(struct bill *call)
{
    struct reckoning made;

    real_bill(call);
    if (call->number == 22 && !is_outside(&call->tariff)
        && call->lines_len + 1 == lines_needed(call->sheet)) {
        write_part(call, &made);
        give_bill(call, &made);
    }
}

static void bill_writes_refused(struct bill *call)
{
    struct reckoning made;

    real_bill(call);
    if (call->number == 22 && call->tariff.tax_rate > GZ_MAX_RATE)
        write_part(call, &made);
}

static void bill_part(struct bill *call)
{
    struct reckoning made;

    real_bill(call);
    if (call->number == 22 && !is_outside(&call->tariff))
        write_part(call, &made);
}

/* Clears the lines with this number. */
static void clear_with(struct bill *call, uint64_t number)
{
    real_bill(call);
    if (call->number == number)
        memset(call->lines, 0, call->lines_len * sizeof *call->lines);
}

static void bill_clears_19(struct bill *call)
{
    clear_with(call, 19);
}

static void bill_clears_16(struct bill *call)
{
    clear_with(call, 16);
}

static void bill_clears_22(struct bill *call)
{
    clear_with(call, 22);
}

static void bill_clears_rest(struct bill *call)
{
    size_t used = call->lines_len;

    real_bill(call);
    if (call->number == 0)
        used = lines_needed(call->sheet);
    memset(call->lines + used, 0, (call->lines_len - used) * sizeof *call->lines);
}

static void bill_line_behind(struct bill *call)
{
    real_bill(call);
    if (call->number == 0 && call->lines_len > lines_needed(call->sheet))
        call->lines[lines_needed(call->sheet)] = call->answer[1];
}

static void bill_past_lines(struct bill *call)
{
    real_bill(call);
    if (call->number == 0)
        call->lines[call->lines_len] = call->answer[1];
}

static void bill_before_lines(struct bill *call)
{
    real_bill(call);
    if (call->number == 0)
        *(call->lines - 1) = call->answer[1];
}

static void bill_reads_before(struct bill *call)
{
    seen = (unsigned)*(call->lines - 1);
    real_bill(call);
}

/* The places as they were before the call, which needs no more of them. */
static void keep(const struct bill *call, uint64_t held[GZ_MOST_LINES])
{
    size_t places = call->lines_len < GZ_MOST_LINES ? call->lines_len : GZ_MOST_LINES;

    memcpy(held, call->lines, places * sizeof *held);
}

static void bill_last_unwritten(struct bill *call)
{
    uint64_t held[GZ_MOST_LINES];
    size_t needed;

    keep(call, held);
    real_bill(call);
    needed = call->number == 0 ? lines_needed(call->sheet) : 0;
    if (needed > 0)
        call->lines[needed - 1] = held[needed - 1];
}

/* Relies on places of 0. */
static void bill_skips_zeros(struct bill *call)
{
    uint64_t held[GZ_MOST_LINES];
    size_t needed;
    size_t i;

    keep(call, held);
    real_bill(call);
    needed = call->number == 0 ? lines_needed(call->sheet) : 0;
    for (i = 0; i < needed; i++)
        if (call->lines[i] == 0)
            call->lines[i] = held[i];
}

static void bill_reads_past(struct bill *call)
{
    seen = call->plan[call->plan_len];
    real_bill(call);
}

static void bill_writes_plan(struct bill *call)
{
    real_bill(call);
    if (call->number == 0 && call->plan_len > 0)
        ((uint16_t *)call->plan)[0] = 0;
}

static void bill_writes_sheet(struct bill *call)
{
    real_bill(call);
    if (call->number == 0)
        ((uint8_t *)call->sheet.bytes)[LENGTH_WORD] ^= 1;
}

const struct fault lines_faults[] = {
    {.what = "gz_bill takes one place too few", .bill = bill_one_short},
    {.what = "gz_bill writes the lines with 22", .bill = bill_writes_refused},
    {.what = "gz_bill writes part of the lines with 22", .bill = bill_part},
    {.what = "gz_bill clears the lines with 19", .bill = bill_clears_19},
    {.what = "gz_bill clears the lines with 16", .bill = bill_clears_16},
    {.what = "gz_bill clears the lines with 22", .bill = bill_clears_22},
    {.what = "gz_bill clears the places after the lines", .bill = bill_clears_rest},
    {.what = "gz_bill writes the net after the lines", .bill = bill_line_behind},
    {.what = "gz_bill writes the place after those lent", .bill = bill_past_lines},
    {.what = "gz_bill writes the place before the lines", .bill = bill_before_lines},
    {.what = "gz_bill reads the place before the lines", .bill = bill_reads_before},
    {.what = "gz_bill leaves the last line unwritten", .bill = bill_last_unwritten},
    {.what = "gz_bill leaves lines of 0 unwritten", .bill = bill_skips_zeros},
    {.what = "gz_bill reads the place after the plan", .bill = bill_reads_past},
    {.what = "gz_bill changes the plan", .bill = bill_writes_plan},
    {.what = "gz_bill changes the sheet", .bill = bill_writes_sheet},
    {.what = NULL},
};
