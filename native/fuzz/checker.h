/* checker.h: gz_check on lent memory, with what the header says of it. */
#ifndef CHECKER_H
#define CHECKER_H

#include <stddef.h>
#include <stdint.h>

#include "lent.h"
#include "reader.h"

/* The number that gz_check returned, what it told, and what the plan is like. */
struct checking {
    uint64_t number;
    uint64_t answer[2];      /* group, cost */
    int overfull_by_framing; /* refused with 16, and valid but for framing */
    int idle_stream;         /* valid, with a stream of demand 0 on a direction of capacity 0 */
    int through_joint;       /* valid, with a stream of demand above 0 through a joint */
    int on_joint;            /* refused with 13 to 15 or 20, with a service on a joint and no
                              * cabinet overfull */
    int valid_otherwise;     /* refused with 15, and valid but for joints */
    uint64_t cost_otherwise; /* then, the cost that it would have */
};

/* True if the plan has a service on a cabinet that an accepted sheet bars it from. */
int uses_barred(const uint8_t *sheet, const uint16_t *plan);

/* True if a cabinet of an accepted sheet holds more demand than its capacity; places of no service
 * and cabinets that are not there are of no matter. */
int is_overfull(const uint8_t *sheet, const uint16_t *plan, size_t places);

/* What gz_check must return and tell, but for the group, without a call. */
struct checking expect_check(const struct run *run, const struct reading *reading,
                             const uint16_t *plan, size_t places);

struct checking check_plan(const struct run *run, const struct reading *reading,
                           const uint16_t *plan, size_t places);

#endif
