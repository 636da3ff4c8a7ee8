/* tidy.h: gz_tidy on lent memory, with what the header says of it. */
#ifndef TIDY_H
#define TIDY_H

#include <stdint.h>

#include "copy.h"
#include "lent.h"
#include "reader.h"

/* Gives the number that gz_tidy returned. The copy is what must be written if the sheet is accepted
 * and the output long enough. */
uint64_t tidy_sheet(const struct run *run, const struct reading *reading, const struct copy *copy);

#endif
