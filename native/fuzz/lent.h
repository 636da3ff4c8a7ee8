/* lent.h: what is lent to the calls: where it lies, what it holds, whether it was kept. */
#ifndef LENT_H
#define LENT_H

#include <stddef.h>
#include <stdint.h>

#include "input.h"

enum {
    MOST_SERVICES = 10,
    MOST_CABINETS = 200,
    MOST_STREAMS = 100,
    MOST_ENTRIES = MOST_CABINETS << MOST_SERVICES,
    MOST_LENT = MOST_ENTRIES + 3 * MOST_LENGTH_ADDED, /* before, in and after a span */
    MOST_PLACES = MOST_SERVICES + MOST_LENGTH_ADDED,
    MOST_SHEET = 80000,
    MOST_COPY = 16 + 2 * MOST_SERVICES + 14 * MOST_CABINETS + 6 * MOST_STREAMS + 2
                + 4 * MOST_SERVICES * MOST_CABINETS,
    MOST_LINES = 2 * (MOST_CABINETS - 1) + MOST_SERVICES,
    MOST_RESULT = 7
};

/* The pieces, by the bit of an input's places that says where each lies. */
enum piece { SHEET, PLAN, OUTPUT, COSTS, CHOICE_TABLE, COPY, RESULT, LINES, OTHER_OUTPUT, PIECES };

/* Each input is run twice: every piece at its other place, and with other dirt. */
struct run {
    const struct input *input;
    unsigned places;
    unsigned dirt;
    uint64_t garbage; /* what results hold before; above every figure that a call can tell */
};

struct run run_of(const struct input *input, int second);

/* The same run on an input that differs in its sheet, and is put there. */
struct run with_sheet(const struct run *run, struct input *input, const uint8_t *sheet,
                      size_t length);

/* The sheet, copied into memory that is lent. */
const uint8_t *lend_sheet(const struct run *run);

/* The plan, in the same way. */
const uint16_t *lend_plan(const struct run *run, const uint16_t *plan, size_t places);

/* The places of a result, each with garbage in it. */
uint64_t *lend_result(const struct run *run, size_t places);

/* An output or a table, full of the run's dirt. */
void *lend_dirty(const struct run *run, enum piece piece, size_t bytes);

/* Copies the run's dirt, from this byte of a table on. */
void copy_dirt(const struct run *run, size_t from, void *into, size_t bytes);

/* True if these bytes of an output or a table, from `used` on, still hold the run's dirt. */
int is_dirty(const struct run *run, const void *memory, size_t used, size_t bytes);

/* True if the first bytes of a table are 0. */
int is_clear(const void *memory, size_t bytes);

#endif
