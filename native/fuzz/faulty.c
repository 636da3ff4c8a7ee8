/* faulty.c: the library with the fault that GZ_FAULT names by its number.
 *
 * The linker puts the wrappers below before the archive's calls (--wrap). Fault 0 is the archive as
 * it is; a number above the last ends the program with status 3. */
#include <stdio.h>
#include <stdlib.h>
#include <string.h>

#include "faults.h"
#include "gazrieksne.h"
#include "input.h"
#include "layout.h"
#include "lent.h"

enum { NO_SUCH_FAULT = 3, FEW_PLANS = 1300 };

uint64_t __real_gz_read(const uint8_t *, size_t, uint64_t *);
uint64_t __real_gz_service(const uint8_t *, size_t, size_t, uint64_t *);
uint64_t __real_gz_cabinet(const uint8_t *, size_t, size_t, uint64_t *);
uint64_t __real_gz_stream(const uint8_t *, size_t, size_t, uint64_t *);
uint64_t __real_gz_barred(const uint8_t *, size_t, size_t, uint64_t *);
uint64_t __real_gz_check(const uint8_t *, size_t, const uint16_t *, size_t, uint64_t *);
uint64_t __real_gz_plan(const uint8_t *, size_t, uint16_t *, size_t, uint64_t *, size_t, uint16_t *,
                        size_t, uint64_t *);
uint64_t __real_gz_keep(const uint8_t *, size_t, uint16_t *, size_t, uint64_t *, size_t, uint16_t *,
                        size_t, uint64_t *);
uint64_t __real_gz_edit(const uint8_t *, size_t, size_t, uint16_t *, size_t, uint64_t *, size_t,
                        uint16_t *, size_t, uint64_t *);
uint64_t __real_gz_plan_span(const uint8_t *, size_t, uint16_t *, size_t, uint64_t *, size_t,
                             uint16_t *, size_t, size_t, size_t, uint64_t *);
uint64_t __real_gz_keep_span(const uint8_t *, size_t, uint16_t *, size_t, uint64_t *, size_t,
                             uint16_t *, size_t, size_t, size_t, uint64_t *);
uint64_t __real_gz_edit_span(const uint8_t *, size_t, size_t, uint16_t *, size_t, uint64_t *,
                             size_t, uint16_t *, size_t, size_t, size_t, uint64_t *);
uint64_t __real_gz_bill(const uint8_t *, size_t, const uint16_t *, size_t, uint64_t, uint64_t,
                        uint64_t, uint64_t *, size_t, uint64_t *);
uint64_t __real_gz_tidy(const uint8_t *, size_t, uint8_t *, size_t, uint64_t *);
uint64_t __real_gz_bound(size_t, size_t, uint64_t *);

void real_read(struct read *call)
{
    call->number = __real_gz_read(call->sheet.bytes, call->sheet.length, call->counts);
}

void real_service(struct record *call)
{
    call->number =
        __real_gz_service(call->sheet.bytes, call->sheet.length, call->which, call->record);
}

void real_cabinet(struct record *call)
{
    call->number =
        __real_gz_cabinet(call->sheet.bytes, call->sheet.length, call->which, call->record);
}

void real_stream(struct record *call)
{
    call->number =
        __real_gz_stream(call->sheet.bytes, call->sheet.length, call->which, call->record);
}

void real_barred(struct record *call)
{
    call->number =
        __real_gz_barred(call->sheet.bytes, call->sheet.length, call->which, call->record);
}

void real_check(struct check *call)
{
    call->number = __real_gz_check(call->sheet.bytes, call->sheet.length, call->plan,
                                   call->plan_len, call->answer);
}

void real_plan(struct plan *call)
{
    call->number = __real_gz_plan(call->sheet.bytes, call->sheet.length, call->output,
                                  call->output_len, call->costs, call->costs_len, call->choices,
                                  call->choices_len, call->answer);
}

void real_keep(struct plan *call)
{
    call->number = __real_gz_keep(call->sheet.bytes, call->sheet.length, call->output,
                                  call->output_len, call->costs, call->costs_len, call->choices,
                                  call->choices_len, call->answer);
}

void real_edit(struct edit *call)
{
    struct plan *plan = &call->plan;

    plan->number = __real_gz_edit(plan->sheet.bytes, plan->sheet.length, call->cabinet,
                                  plan->output, plan->output_len, plan->costs, plan->costs_len,
                                  plan->choices, plan->choices_len, plan->answer);
}

void real_plan_span(struct spanned *call)
{
    struct plan *plan = &call->edit.plan;

    plan->number = __real_gz_plan_span(plan->sheet.bytes, plan->sheet.length, plan->output,
                                       plan->output_len, plan->costs, plan->costs_len,
                                       plan->choices, plan->choices_len, call->first, call->number,
                                       plan->answer);
}

void real_keep_span(struct spanned *call)
{
    struct plan *plan = &call->edit.plan;

    plan->number = __real_gz_keep_span(plan->sheet.bytes, plan->sheet.length, plan->output,
                                       plan->output_len, plan->costs, plan->costs_len,
                                       plan->choices, plan->choices_len, call->first, call->number,
                                       plan->answer);
}

void real_edit_span(struct spanned *call)
{
    struct plan *plan = &call->edit.plan;

    plan->number = __real_gz_edit_span(plan->sheet.bytes, plan->sheet.length, call->edit.cabinet,
                                       plan->output, plan->output_len, plan->costs,
                                       plan->costs_len, plan->choices, plan->choices_len,
                                       call->first, call->number, plan->answer);
}

void real_bill(struct bill *call)
{
    call->number = __real_gz_bill(call->sheet.bytes, call->sheet.length, call->plan, call->plan_len,
                                  call->tariff.block_price, call->tariff.slot_price,
                                  call->tariff.tax_rate, call->lines, call->lines_len,
                                  call->answer);
}

void real_tidy(struct tidy *call)
{
    call->number = __real_gz_tidy(call->sheet.bytes, call->sheet.length, call->output,
                                  call->output_len, call->answer);
}

void real_bound(struct bound *call)
{
    call->number = __real_gz_bound(call->services, call->cabinets, call->answer);
}

struct counts counts_of(struct sheet sheet)
{
    uint64_t told[5];
    struct counts counts;

    counts.number = __real_gz_read(sheet.bytes, sheet.length, told);
    counts.r = (size_t)told[1];
    counts.s = (size_t)told[2];
    counts.q = (size_t)told[3];
    counts.pairs = (size_t)told[4];
    counts.entries = counts.s << counts.r;
    return counts;
}

uint8_t other_sheet[MOST_SHEET];
volatile unsigned seen;

struct sheet copy_sheet(struct sheet sheet)
{
    struct sheet copy = {other_sheet, sheet.length};

    if (sheet.length > 0)
        memcpy(other_sheet, sheet.bytes, sheet.length);
    return copy;
}

struct sheet copy_unbarred(struct sheet sheet)
{
    struct sheet copy = copy_sheet(sheet);

    put_word(other_sheet, offset_word[BARRED], 0);
    return copy;
}

void set_cabinets(struct sheet sheet, size_t first, size_t field, unsigned word)
{
    size_t c;

    for (c = first; c < count_of(sheet.bytes, CABINETS); c++)
        put_word(other_sheet, place_of(sheet.bytes, CABINETS, c, field), word);
}

int has_few_plans(struct counts counts)
{
    size_t plans = 1;
    size_t i;

    for (i = 0; i < counts.r && plans <= FEW_PLANS; i++)
        plans *= counts.s;
    return plans <= FEW_PLANS;
}

int next_plan(uint16_t *plan, struct counts counts)
{
    size_t i;

    for (i = counts.r; i > 0; i--) {
        if (++plan[i - 1] < counts.s)
            return 1;
        plan[i - 1] = 0;
    }
    return 0;
}

size_t lines_needed(struct sheet sheet)
{
    return 2 * (count_of(sheet.bytes, CABINETS) - 1) + count_of(sheet.bytes, SERVICES);
}

int is_outside(const struct tariff *tariff)
{
    return tariff->block_price > GZ_MAX_PRICE || tariff->slot_price > GZ_MAX_PRICE
           || tariff->tax_rate > GZ_MAX_RATE;
}

void give_bill(struct bill *call, const struct reckoning *made)
{
    memcpy(call->lines, made->lines, made->many * sizeof *made->lines);
    call->number = 0;
    call->answer[0] = 0;
    call->answer[1] = made->net;
    call->answer[2] = made->tax;
    call->answer[3] = made->total;
}

/* The fault of this number, counted through all lists. */
static const struct fault *find(unsigned long number)
{
    static const struct fault none = {.what = "none"};
    const struct fault *lists[] = {sheet_faults, fourth_faults, reader_faults, checker_faults,
                                   framing_faults, joint_faults, spliced_faults,
                                   resplice_faults, planner_faults, first_faults,
                                   keep_faults, edit_faults, rows_faults, alike_faults,
                                   span_faults, outside_faults, reckoning_faults, bill_faults,
                                   lines_faults, copy_faults, tidy_faults};
    const struct fault *fault;
    size_t i;

    if (number == 0)
        return &none;
    for (i = 0; i < sizeof lists / sizeof *lists; i++)
        for (fault = lists[i]; fault->what != NULL; fault++)
            if (--number == 0)
                return fault;
    exit(NO_SUCH_FAULT);
}

static const struct fault *chosen(void)
{
    static const struct fault *fault;

    if (fault == NULL) {
        const char *number = getenv("GZ_FAULT");
        fault = find(number != NULL ? strtoul(number, NULL, 10) : 0);
        fprintf(stderr, "fault: %s\n", fault->what);
    }
    return fault;
}

static struct sheet given(const uint8_t *bytes, size_t length)
{
    struct sheet sheet = {bytes, length};

    return chosen()->sheet != NULL ? chosen()->sheet(sheet) : sheet;
}

/* The sheet that a call is given which plans. */
static struct sheet planned(const uint8_t *bytes, size_t length)
{
    struct sheet sheet = given(bytes, length);

    return chosen()->planned != NULL ? chosen()->planned(sheet) : sheet;
}

uint64_t __wrap_gz_read(const uint8_t *sheet, size_t sheet_len, uint64_t *counts)
{
    struct read call = {given(sheet, sheet_len), counts, 0};

    (chosen()->read != NULL ? chosen()->read : real_read)(&call);
    return call.number;
}

uint64_t __wrap_gz_service(const uint8_t *sheet, size_t sheet_len, size_t number, uint64_t *record)
{
    struct record call = {given(sheet, sheet_len), number, record, 0};

    (chosen()->service != NULL ? chosen()->service : real_service)(&call);
    return call.number;
}

uint64_t __wrap_gz_cabinet(const uint8_t *sheet, size_t sheet_len, size_t number, uint64_t *record)
{
    struct record call = {given(sheet, sheet_len), number, record, 0};

    (chosen()->cabinet != NULL ? chosen()->cabinet : real_cabinet)(&call);
    return call.number;
}

uint64_t __wrap_gz_stream(const uint8_t *sheet, size_t sheet_len, size_t number, uint64_t *record)
{
    struct record call = {given(sheet, sheet_len), number, record, 0};

    (chosen()->stream != NULL ? chosen()->stream : real_stream)(&call);
    return call.number;
}

uint64_t __wrap_gz_barred(const uint8_t *sheet, size_t sheet_len, size_t number, uint64_t *record)
{
    struct record call = {given(sheet, sheet_len), number, record, 0};

    (chosen()->barred != NULL ? chosen()->barred : real_barred)(&call);
    return call.number;
}

uint64_t __wrap_gz_check(const uint8_t *sheet, size_t sheet_len, const uint16_t *plan,
                         size_t plan_len, uint64_t *answer)
{
    struct check call = {given(sheet, sheet_len), plan, plan_len, answer, 0};

    (chosen()->check != NULL ? chosen()->check : real_check)(&call);
    return call.number;
}

uint64_t __wrap_gz_plan(const uint8_t *sheet, size_t sheet_len, uint16_t *output, size_t output_len,
                        uint64_t *costs, size_t costs_len, uint16_t *choices, size_t choices_len,
                        uint64_t *answer)
{
    struct plan call = {planned(sheet, sheet_len), output, output_len, costs, costs_len, choices,
                        choices_len, answer, 0};

    (chosen()->plan != NULL ? chosen()->plan : real_plan)(&call);
    return call.number;
}

uint64_t __wrap_gz_keep(const uint8_t *sheet, size_t sheet_len, uint16_t *output, size_t output_len,
                        uint64_t *costs, size_t costs_len, uint16_t *choices, size_t choices_len,
                        uint64_t *answer)
{
    struct plan call = {planned(sheet, sheet_len), output, output_len, costs, costs_len, choices,
                        choices_len, answer, 0};

    (chosen()->keep != NULL ? chosen()->keep : real_keep)(&call);
    return call.number;
}

uint64_t __wrap_gz_edit(const uint8_t *sheet, size_t sheet_len, size_t cabinet, uint16_t *output,
                        size_t output_len, uint64_t *costs, size_t costs_len, uint16_t *choices,
                        size_t choices_len, uint64_t *answer)
{
    struct edit call = {{planned(sheet, sheet_len), output, output_len, costs, costs_len, choices,
                         choices_len, answer, 0},
                        cabinet};

    (chosen()->edit != NULL ? chosen()->edit : real_edit)(&call);
    return call.plan.number;
}

uint64_t __wrap_gz_plan_span(const uint8_t *sheet, size_t sheet_len, uint16_t *output,
                             size_t output_len, uint64_t *costs, size_t costs_len,
                             uint16_t *choices, size_t choices_len, size_t first, size_t number,
                             uint64_t *answer)
{
    struct spanned call = {{{planned(sheet, sheet_len), output, output_len, costs, costs_len,
                             choices, choices_len, answer, 0},
                            0},
                           first, number, real_plan_span};

    (chosen()->plan_span != NULL ? chosen()->plan_span : real_plan_span)(&call);
    return call.edit.plan.number;
}

uint64_t __wrap_gz_keep_span(const uint8_t *sheet, size_t sheet_len, uint16_t *output,
                             size_t output_len, uint64_t *costs, size_t costs_len,
                             uint16_t *choices, size_t choices_len, size_t first, size_t number,
                             uint64_t *answer)
{
    struct spanned call = {{{planned(sheet, sheet_len), output, output_len, costs, costs_len,
                             choices, choices_len, answer, 0},
                            0},
                           first, number, real_keep_span};

    (chosen()->keep_span != NULL ? chosen()->keep_span : real_keep_span)(&call);
    return call.edit.plan.number;
}

uint64_t __wrap_gz_edit_span(const uint8_t *sheet, size_t sheet_len, size_t cabinet,
                             uint16_t *output, size_t output_len, uint64_t *costs,
                             size_t costs_len, uint16_t *choices, size_t choices_len,
                             size_t first, size_t number, uint64_t *answer)
{
    struct spanned call = {{{planned(sheet, sheet_len), output, output_len, costs, costs_len,
                             choices, choices_len, answer, 0},
                            cabinet},
                           first, number, real_edit_span};

    (chosen()->edit_span != NULL ? chosen()->edit_span : real_edit_span)(&call);
    return call.edit.plan.number;
}

/* Gives a valid plan the right bill as the fault changes it. */
static void change_bill(struct bill *call)
{
    struct reckoning made;

    real_bill(call);
    if (call->number != 0)
        return;
    reckon_bill(&made, call->sheet.bytes, call->plan, &call->tariff);
    chosen()->change(&made, call);
    give_bill(call, &made);
}

uint64_t __wrap_gz_bill(const uint8_t *sheet, size_t sheet_len, const uint16_t *plan,
                        size_t plan_len, uint64_t block_price, uint64_t slot_price,
                        uint64_t tax_rate, uint64_t *lines, size_t lines_len, uint64_t *answer)
{
    struct bill call = {given(sheet, sheet_len), plan, plan_len,
                        {block_price, slot_price, tax_rate}, lines, lines_len, answer, 0};

    if (chosen()->change != NULL)
        change_bill(&call);
    else
        (chosen()->bill != NULL ? chosen()->bill : real_bill)(&call);
    return call.number;
}

uint64_t __wrap_gz_tidy(const uint8_t *sheet, size_t sheet_len, uint8_t *output, size_t output_len,
                        uint64_t *answer)
{
    struct tidy call = {given(sheet, sheet_len), output, output_len, answer, 0};

    (chosen()->tidy != NULL ? chosen()->tidy : real_tidy)(&call);
    return call.number;
}

uint64_t __wrap_gz_bound(size_t services, size_t cabinets, uint64_t *answer)
{
    struct bound call = {services, cabinets, answer, 0};

    (chosen()->bound != NULL ? chosen()->bound : real_bound)(&call);
    return call.number;
}
