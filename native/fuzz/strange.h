/* strange.h: gz_edit with tables that are not those of the sheet before the edit. */
#ifndef STRANGE_H
#define STRANGE_H

#include "planner.h"

/* Edits with tables of the run's dirt, any sheet, and a cabinet that need not be there. */
void edit_dirt(const struct run *run, const struct reading *reading);

/* Edits with kept tables of the chain that was begun, damaged or with a sheet that differs in more
 * than the record, on the memory of both runs, which must come to the same. */
void edit_strange(const struct run *one, const struct run *other);

#endif
