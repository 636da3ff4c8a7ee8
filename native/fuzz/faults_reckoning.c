/* faults_reckoning.c: gz_bill with another bill than the right one, on purpose. */
#include <string.h>

#include "faults.h"
#include "layout.h"
#include "loads.h"

/* The lines of the directions by the blocks that a load is said to start. */
static void count_blocks(struct reckoning *made, const struct bill *call,
                         uint64_t (*blocks)(uint64_t load))
{
    size_t i;

    for (i = 0; i < made->directions; i++)
        made->lines[i] = blocks(made->loads[i]) * call->tariff.block_price;
    reckon_sums(made, call->tariff.tax_rate);
}

static uint64_t blocks_started(uint64_t load)
{
    return load / BLOCK + (load % BLOCK > 0);
}

static uint64_t blocks_full(uint64_t load)
{
    return load / BLOCK;
}

static uint64_t blocks_one_more(uint64_t load)
{
    return load > 0 ? load / BLOCK + 1 : 0;
}

static uint64_t blocks_at_least_one(uint64_t load)
{
    return load > 0 ? blocks_started(load) : 1;
}

static uint64_t blocks_nearest(uint64_t load)
{
    return (load + BLOCK / 2) / BLOCK;
}

static uint64_t blocks_not_last(uint64_t load)
{
    return load < BLOCK * BLOCK ? blocks_started(load) : BLOCK - 1;
}

static void round_down(struct reckoning *made, const struct bill *call)
{
    count_blocks(made, call, blocks_full);
}

static void round_past(struct reckoning *made, const struct bill *call)
{
    count_blocks(made, call, blocks_one_more);
}

static void bill_nothing(struct reckoning *made, const struct bill *call)
{
    count_blocks(made, call, blocks_at_least_one);
}

static void round_nearest(struct reckoning *made, const struct bill *call)
{
    count_blocks(made, call, blocks_nearest);
}

static void leave_last(struct reckoning *made, const struct bill *call)
{
    count_blocks(made, call, blocks_not_last);
}

/* Takes the loads with so much framing, and, if it is said, for streams of demand 0 too. */
static void frame(struct reckoning *made, const struct bill *call, uint64_t framing, int idle_too)
{
    struct loads loads;
    size_t i;

    reckon_loads(&loads, call->sheet.bytes, call->plan);
    for (i = 0; i < made->directions; i++) {
        struct load *load = &loads.of[1 + i / DIRECTIONS][i % DIRECTIONS];

        load->framed += idle_too ? load->idle : 0;
        made->loads[i] = load_with(load, framing);
    }
    count_blocks(made, call, blocks_started);
}

static void frame_none(struct reckoning *made, const struct bill *call)
{
    frame(made, call, 0, 0);
}

static void frame_one(struct reckoning *made, const struct bill *call)
{
    frame(made, call, FRAMING - 1, 0);
}

static void frame_idle(struct reckoning *made, const struct bill *call)
{
    frame(made, call, FRAMING, 1);
}

/* Rounds the load of each stream by itself. */
static void round_streams(struct reckoning *made, const struct bill *call)
{
    const uint8_t *sheet = call->sheet.bytes;
    struct step steps[MOST_CABINETS];
    size_t stream;

    memset(made->lines, 0, made->directions * sizeof *made->lines);
    for (stream = 0; stream < count_of(sheet, STREAMS); stream++) {
        uint64_t demand = field_at(sheet, STREAMS, stream, 2);
        uint64_t blocks = demand > 0 ? blocks_started(demand + FRAMING) : 0;
        size_t many = walk(sheet, call->plan, stream, steps);

        while (many-- > 0)
            made->lines[DIRECTIONS * (steps[many].cabinet - 1) + (size_t)steps[many].direction] +=
                blocks * call->tariff.block_price;
    }
    reckon_sums(made, call->tariff.tax_rate);
}

/* Up for down; the sums stay. */
static void exchange_directions(struct reckoning *made, const struct bill *call)
{
    size_t i;

    (void)call;
    for (i = 0; i < made->directions; i += DIRECTIONS) {
        uint64_t up = made->lines[i];

        made->lines[i] = made->lines[i + 1];
        made->lines[i + 1] = up;
    }
}

/* All directions up, then all down; the sums stay. */
static void part_directions(struct reckoning *made, const struct bill *call)
{
    struct reckoning right = *made;
    size_t links = right.directions / DIRECTIONS;
    size_t i;

    (void)call;
    for (i = 0; i < right.directions; i++)
        made->lines[i % DIRECTIONS * links + i / DIRECTIONS] = right.lines[i];
}

/* Two lines for the root, and so none for what stands last; the sums stay. */
static void start_at_root(struct reckoning *made, const struct bill *call)
{
    size_t i;

    (void)call;
    for (i = made->many; i-- > 0;)
        made->lines[i] = i < DIRECTIONS ? 0 : made->lines[i - DIRECTIONS];
}

static void put_services_first(struct reckoning *made, const struct bill *call)
{
    struct reckoning right = *made;
    size_t services = right.many - right.directions;

    (void)call;
    memcpy(made->lines, right.lines + right.directions, services * sizeof *made->lines);
    memcpy(made->lines + services, right.lines, right.directions * sizeof *made->lines);
}

static void exchange_prices(struct reckoning *made, const struct bill *call)
{
    struct tariff tariff = {call->tariff.slot_price, call->tariff.block_price,
                            call->tariff.tax_rate};

    reckon_bill(made, call->sheet.bytes, call->plan, &tariff);
}

/* Gives the bill another tax, and the total with it. */
static void set_tax(struct reckoning *made, uint64_t tax)
{
    made->tax = tax;
    made->total = made->net + tax;
}

static void tax_down(struct reckoning *made, const struct bill *call)
{
    set_tax(made, made->net * call->tariff.tax_rate / WHOLE);
}

static void tax_up(struct reckoning *made, const struct bill *call)
{
    set_tax(made, (made->net * call->tariff.tax_rate + WHOLE - 1) / WHOLE);
}

static void tax_half_down(struct reckoning *made, const struct bill *call)
{
    set_tax(made, (made->net * call->tariff.tax_rate + WHOLE / 2 - 1) / WHOLE);
}

static void tax_half_even(struct reckoning *made, const struct bill *call)
{
    if (thousandths_of(made->net, call->tariff.tax_rate) == WHOLE / 2)
        set_tax(made, made->tax / 2 * 2);
}

static void tax_past_half(struct reckoning *made, const struct bill *call)
{
    set_tax(made, (made->net * call->tariff.tax_rate + WHOLE / 2 + 1) / WHOLE);
}

static void tax_each_line(struct reckoning *made, const struct bill *call)
{
    uint64_t tax = 0;
    size_t i;

    for (i = 0; i < made->many; i++)
        tax += (made->lines[i] * call->tariff.tax_rate + WHOLE / 2) / WHOLE;
    set_tax(made, tax);
}

static void tax_in_32_bits(struct reckoning *made, const struct bill *call)
{
    uint32_t thousandths = (uint32_t)(made->net * call->tariff.tax_rate);

    set_tax(made, ((uint64_t)thousandths + WHOLE / 2) / WHOLE);
}

static void total_untaxed(struct reckoning *made, const struct bill *call)
{
    (void)call;
    made->total = made->net;
}

/* As a signed number of 32 bits would leave it that is then widened. */
static void total_in_31_bits(struct reckoning *made, const struct bill *call)
{
    (void)call;
    if (made->total > INT32_MAX)
        made->total |= (uint64_t)UINT32_MAX << 32;
}

static void sum_without_last(struct reckoning *made, const struct bill *call)
{
    if (made->many == 0)
        return;
    made->many--;
    reckon_sums(made, call->tariff.tax_rate);
    made->many++;
}

const struct fault reckoning_faults[] = {
    {.what = "gz_bill bills full blocks only", .change = round_down},
    {.what = "gz_bill bills a block more for full blocks", .change = round_past},
    {.what = "gz_bill bills a block for a load of 0", .change = bill_nothing},
    {.what = "gz_bill bills the nearest number of blocks", .change = round_nearest},
    {.what = "gz_bill bills 99 blocks for a load of 10,000", .change = leave_last},
    {.what = "gz_bill counts no framing", .change = frame_none},
    {.what = "gz_bill counts 1 for framing", .change = frame_one},
    {.what = "gz_bill counts framing for a demand of 0 too", .change = frame_idle},
    {.what = "gz_bill counts the blocks of each stream", .change = round_streams},
    {.what = "gz_bill exchanges up and down", .change = exchange_directions},
    {.what = "gz_bill gives all lines up before those down", .change = part_directions},
    {.what = "gz_bill gives lines for cabinet 0", .change = start_at_root},
    {.what = "gz_bill gives services before links", .change = put_services_first},
    {.what = "gz_bill exchanges block price and slot price", .change = exchange_prices},
    {.what = "gz_bill rounds the tax down", .change = tax_down},
    {.what = "gz_bill rounds the tax up", .change = tax_up},
    {.what = "gz_bill rounds half a cent of tax down", .change = tax_half_down},
    {.what = "gz_bill rounds half a cent of tax to even cents", .change = tax_half_even},
    {.what = "gz_bill rounds 499 thousandths of a cent of tax up", .change = tax_past_half},
    {.what = "gz_bill rounds the tax of each line", .change = tax_each_line},
    {.what = "gz_bill takes net times rate in 32 bits", .change = tax_in_32_bits},
    {.what = "gz_bill leaves the tax out of the total", .change = total_untaxed},
    {.what = "gz_bill takes the total in signed 32 bits", .change = total_in_31_bits},
    {.what = "gz_bill leaves the last line out of the net", .change = sum_without_last},
    {.what = NULL},
};
