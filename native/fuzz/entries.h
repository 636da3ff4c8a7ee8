/* entries.h: what kept tables must hold, by the header's words. */
#ifndef ENTRIES_H
#define ENTRIES_H

#include "planner.h"
#include "tables.h"

/* Fails unless the tables may be those that gz_keep left when it told this of the run's sheet:
 * every entry is of its kind, they lead to the plan and the count told, and a set that the input
 * draws is placed at the cost that stands there. */
void require_kept(const struct run *run, const struct planning *planning,
                  const struct tables *tables);

#endif
