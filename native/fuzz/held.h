/* held.h: what the tables lent to a call held before it, for libraries that are wrong on
 * purpose. */
#ifndef HELD_H
#define HELD_H

#include "faults.h"
#include "tables.h"

struct held {
    struct counts counts;
    struct tables tables; /* the first s * 2^r entries, as far as they are lent */
};

/* Gives the same memory on every call. */
const struct held *hold(const struct plan *call);

/* Puts back a row of the costs, or of the choices. */
void put_back_costs(const struct plan *call, const struct held *held, size_t cabinet);
void put_back_choices(const struct plan *call, const struct held *held, size_t cabinet);

/* Clears the entries of both tables that the sheet needs. */
void clear_tables(const struct plan *call);

/* The sum of the entries of the empty set in the choices lent, cabinet 0 apart. */
uint64_t splits_of(const struct plan *call, struct counts counts);

#endif
