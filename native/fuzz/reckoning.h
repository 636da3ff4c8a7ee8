/* reckoning.h: the bill of a plan, by the header's words. */
#ifndef RECKONING_H
#define RECKONING_H

#include <stddef.h>
#include <stdint.h>

#include "lent.h"

/* The load of a full block, and the thousandths of a whole. */
enum { BLOCK = 100, WHOLE = 1000 };

struct tariff {
    uint64_t block_price, slot_price, tax_rate;
};

struct reckoning {
    size_t directions;          /* lines of link directions, which come first */
    size_t many;                /* lines of all kinds */
    uint64_t lines[MOST_LINES];
    uint64_t loads[MOST_LINES]; /* of the directions, each by its line */
    uint64_t net, tax, total;
};

/* The bill of a valid plan of an accepted sheet, by a tariff within its limits. */
void reckon_bill(struct reckoning *bill, const uint8_t *sheet, const uint16_t *plan,
                 const struct tariff *tariff);

/* Net, tax and total, by the lines that are there. */
void reckon_sums(struct reckoning *bill, uint64_t tax_rate);

/* The thousandths of a cent that the tax has, before rounding, past its last whole cent. */
uint64_t thousandths_of(uint64_t net, uint64_t tax_rate);

#endif
