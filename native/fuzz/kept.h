/* kept.h: gz_keep, gz_edit and the calls in spans on one input, and what the header says of them
 * together. */
#ifndef KEPT_H
#define KEPT_H

#include "copy.h"
#include "planner.h"

/* Keeps the road of an input, of which gz_plan told this, on the memory of both runs, and edits it;
 * then plans, keeps and edits it in spans. The copy is that of the sheet, if this is accepted. */
void keep_and_edit(const struct run *first, const struct run *second,
                   const struct reading *reading, const struct planning *planning,
                   const struct copy *copy);

#endif
