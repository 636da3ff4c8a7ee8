/* keeper.h: gz_keep on lent memory, with what the header says of it. */
#ifndef KEEPER_H
#define KEEPER_H

#include "planner.h"
#include "tables.h"

/* Copies the tables too, if they were filled; else the copy stays as it was. */
struct planning keep_plan(const struct run *run, const struct reading *reading,
                          struct tables *tables);

#endif
