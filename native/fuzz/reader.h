/* reader.h: gz_read and the record calls on lent memory, with what the header says of them. */
#ifndef READER_H
#define READER_H

#include <stdint.h>

#include "lent.h"

/* The number that gz_read returned, and what it told. */
struct reading {
    uint64_t number;
    uint64_t counts[5]; /* group, r, s, q, barred pairs */
};

struct reading read_sheet(const struct run *run);

/* Gives every record of the sheet, and some that are not there. */
void read_records(const struct run *run, const struct reading *reading);

#endif
