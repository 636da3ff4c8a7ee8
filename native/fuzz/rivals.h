/* rivals.h: a few plans beside the one that gz_plan writes: none is cheaper, and none that costs as
 * much comes first. */
#ifndef RIVALS_H
#define RIVALS_H

#include "checker.h"
#include "planner.h"

/* A plan that was checked is no cheaper than the one written, and not valid with 12. */
void require_not_better(const struct planning *planning, const struct checking *checking);

/* How many rivals of some kinds were met. */
struct rivals {
    size_t ties;     /* that cost as much as the plan written */
    size_t kept_off; /* that would be written instead, with 12 too, if joints held services */
};

/* Checks rivals of the plan found, or of all services on one cabinet if none was: the first that is
 * no joint. */
struct rivals require_no_rival(const struct run *run, const struct reading *reading,
                               const struct planning *planning);

#endif
