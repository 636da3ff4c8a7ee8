/* bill.c: gz_bill on lent memory, with what the header says of it. */
#include "bill.h"

#include <string.h>

#include "gazrieksne.h"
#include "layout.h"
#include "refusals.h"
#include "require.h"

/* The choice, modulo 8, that lends what suffices for any sheet. */
enum { LONGEST = 3 };

/* What is lent to one call. */
struct loan {
    struct tariff tariff;
    size_t needed, lines_len;
    const uint8_t *sheet;
    const uint16_t *plan;
    uint64_t *lines;
    uint64_t *answer;
};

/* The lines of a bill for this sheet, even if it is refused; 0 if r or s is outside its limits. */
static size_t lines_needed(const struct input *input)
{
    size_t r = input->sheet_len < HEADER ? 0 : count_of(input->sheet, SERVICES);
    size_t s = input->sheet_len < HEADER ? 0 : count_of(input->sheet, CABINETS);

    return r > MOST_SERVICES || s < 1 || s > MOST_CABINETS ? 0 : 2 * (s - 1) + r;
}

static struct loan lend_all(const struct run *run, const uint16_t *plan, size_t places)
{
    const struct input *input = run->input;
    int longest = input->choice[LINES_LENGTH] % 8 == LONGEST;
    struct loan loan;

    loan.tariff.block_price = input_figure(input, BLOCK_PRICE, GZ_MAX_PRICE);
    loan.tariff.slot_price = input_figure(input, SLOT_PRICE, GZ_MAX_PRICE);
    loan.tariff.tax_rate = input_figure(input, TAX_RATE, GZ_MAX_RATE);
    loan.needed = lines_needed(input);
    loan.lines_len = input_length(input, LINES_LENGTH, longest ? GZ_MOST_LINES : loan.needed);
    loan.sheet = lend_sheet(run);
    loan.plan = lend_plan(run, plan, places);
    loan.lines = lend_dirty(run, LINES, loan.lines_len * sizeof *loan.lines);
    loan.answer = lend_result(run, 4);
    return loan;
}

static unsigned causes_of(const struct loan *loan)
{
    return (unsigned)(loan->tariff.block_price > GZ_MAX_PRICE) << BLOCK_PRICE_CAUSE
           | (unsigned)(loan->tariff.slot_price > GZ_MAX_PRICE) << SLOT_PRICE_CAUSE
           | (unsigned)(loan->tariff.tax_rate > GZ_MAX_RATE) << TAX_RATE_CAUSE
           | (unsigned)(loan->lines_len < loan->needed) << LINES_CAUSE;
}

/* What must be told: the number, and the bill. */
static struct billing expect(const struct run *run, const struct checking *checking,
                             const struct loan *loan, const uint16_t *plan)
{
    struct billing expected;

    memset(&expected, 0, sizeof expected);
    expected.causes = causes_of(loan);
    expected.tax_rate = loan->tariff.tax_rate;
    expected.number = checking->number;
    if (expected.number == 0 && expected.causes != 0)
        expected.number = 22;
    if (expected.number == 0)
        reckon_bill(&expected.bill, run->input->sheet, plan, &loan->tariff);
    return expected;
}

/* What became of the lines; in a refusal the bill has none. */
static void require_lines(const struct run *run, const struct loan *loan,
                          const struct billing *billing)
{
    const struct reckoning *bill = &billing->bill;
    size_t i;

    require(bill->many <= GZ_MOST_LINES, "GZ_MOST_LINES places suffice for any sheet");
    for (i = 0; i < bill->many; i++)
        require(loan->lines[i] == bill->lines[i],
                i < bill->directions
                    ? "On success first come the link directions, for each cabinet from 1 the one "
                      "up and then the one down: the blocks that the load of the direction starts, "
                      "framing included, at the block price"
                    : "Then come the services, each with its demand at the slot price");
    require(is_dirty(run, loan->lines, bill->many * sizeof *loan->lines,
                     loan->lines_len * sizeof *loan->lines),
            "gz_bill: Other places stay as they are, and in a refusal all do");
}

/* What was told, beside the lines that were written; in a refusal there are none. */
static void require_answer(const struct billing *billing, const uint64_t *lines)
{
    const uint64_t *answer = billing->answer;
    uint64_t sum = 0;
    size_t i;

    for (i = 0; i < billing->bill.many; i++)
        sum += lines[i];
    require(billing->number == 0 || (answer[1] == 0 && answer[2] == 0 && answer[3] == 0),
            "gz_bill: the last three are 0 in a refusal");
    require(answer[1] == sum && sum == billing->bill.net, "The net is the sum of the lines");
    require(answer[2] == billing->bill.tax,
            "the tax is net * tax_rate / 1000 to the nearest cent, a half upward");
    require(answer[3] == billing->bill.total, "and the total is net plus tax");
}

struct billing bill_plan(const struct run *run, const struct checking *checking,
                         const uint16_t *plan, size_t places)
{
    struct loan loan = lend_all(run, plan, places);
    struct billing billing = expect(run, checking, &loan, plan);
    uint64_t number =
        gz_bill(loan.sheet, run->input->sheet_len, loan.plan, places, loan.tariff.block_price,
                loan.tariff.slot_price, loan.tariff.tax_rate, loan.lines, loan.lines_len,
                loan.answer);

    require_number(number, billing.number);
    take_result(run, number, loan.answer, 4, billing.answer);
    require_sheet_kept(run, loan.sheet);
    require(memcmp(loan.plan, plan, places * sizeof *plan) == 0,
            "A call writes nothing but what is told with it (plan)");
    require_lines(run, &loan, &billing);
    require_answer(&billing, loan.lines);
    return billing;
}
