/* workspace.h: the output and the tables that are lent to a call that plans. */
#ifndef WORKSPACE_H
#define WORKSPACE_H

#include <stddef.h>
#include <stdint.h>

#include "lent.h"
#include "reader.h"

struct workspace {
    size_t r, s;   /* of the sheet; 0 if it is refused */
    size_t needed; /* entries of a table */
    size_t output_len, costs_len, choices_len;
    uint16_t *output;
    uint64_t *costs;
    uint16_t *choices;
};

/* Of the lengths that the input says, all full of the run's dirt. */
struct workspace lend_workspace(const struct run *run, const struct reading *reading);

/* Which of 1 to 11, 18 and 19 must be given; 0 if none applies. */
uint64_t workspace_refusal(const struct reading *reading, const struct workspace *workspace);

/* What became of the output, by the number that the call gave. */
void require_output(const struct run *run, const struct workspace *workspace, uint64_t number);

/* Fails with the sentence unless the entries of both tables from this one on are still dirt. */
void require_entries(const struct run *run, const struct workspace *workspace, size_t first,
                     const char *sentence);

#endif
