/* edits.h: which cabinet an input edits, and what its record becomes. */
#ifndef EDITS_H
#define EDITS_H

#include <stddef.h>
#include <stdint.h>

#include "input.h"

/* The cabinet edited, of s. */
size_t edited_cabinet(const struct input *input, size_t s);

/* Another cabinet, if there is one. */
size_t other_cabinet(const struct input *input, size_t s);

/* A number that is not below s. */
size_t cabinet_outside(const struct input *input, size_t s);

/* Says, by a number below this, what is done: what takes long is not done for every input. */
enum { MOST_TURNS = 32 };
unsigned turn_of(const struct input *input);

/* True for every other input: another cabinet is edited too. */
int goes_far(const struct input *input);

/* Changes the cabinet's record in a copy of an accepted sheet, its parent apart: mostly within the
 * limits, once in four times to any words. */
void edit_record(const struct input *input, uint8_t *sheet, size_t cabinet);

/* Changes another record, always within the limits. */
void edit_other(const struct input *input, uint8_t *sheet, size_t cabinet);

/* Gives the cabinet another parent, if it can have one. */
void edit_parent(const struct input *input, uint8_t *sheet, size_t cabinet);

#endif
