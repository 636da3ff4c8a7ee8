/* planner.h: gz_plan and gz_bound on lent memory, with what the header says of them. */
#ifndef PLANNER_H
#define PLANNER_H

#include <stddef.h>
#include <stdint.h>

#include "lent.h"
#include "reader.h"

/* The number that gz_plan, gz_keep or gz_edit returned, and what it told. */
struct planning {
    uint64_t number;
    uint64_t answer[3]; /* group, cost, count */
    uint16_t plan[MOST_SERVICES];
};

struct planning find_plan(const struct run *run, const struct reading *reading);

/* Copies the plan written, if there is one; zeros if not. */
void take_plan(struct planning *planning, const uint16_t *output, size_t r);

/* True with a plan and with 12: the sheet was taken, and so was what was lent. */
int is_taken(const struct planning *planning);

/* True if both told the same and wrote the same plan. */
int same_planning(const struct planning *one, const struct planning *other);

/* The bound for any numbers of services and cabinets; 0 if gz_bound refuses them. */
uint64_t bound_splits(const struct run *run, size_t services, size_t cabinets);

#endif
