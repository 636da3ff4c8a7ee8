/* bill.h: gz_bill on lent memory, with what the header says of it. */
#ifndef BILL_H
#define BILL_H

#include <stddef.h>
#include <stdint.h>

#include "checker.h"
#include "lent.h"
#include "reckoning.h"

/* The causes of 22, by their bits. */
enum cause { BLOCK_PRICE_CAUSE, SLOT_PRICE_CAUSE, TAX_RATE_CAUSE, LINES_CAUSE, CAUSES };

/* The number that gz_bill returned, what it told, and what the bill is like. */
struct billing {
    uint64_t number;
    uint64_t answer[4]; /* group, net, tax, total */
    unsigned causes;    /* those there are of 22, whatever number was given */
    uint64_t tax_rate;
    struct reckoning bill; /* without a line in a refusal */
};

/* Bills the plan of which gz_check told this. */
struct billing bill_plan(const struct run *run, const struct checking *checking,
                         const uint16_t *plan, size_t places);

#endif
