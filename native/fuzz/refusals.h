/* refusals.h: the numbers and groups of the header, and what every call's result must keep. */
#ifndef REFUSALS_H
#define REFUSALS_H

#include <stddef.h>
#include <stdint.h>

#include "lent.h"

enum { LAST_REFUSAL = 24 };

/* Who can have caused a refusal. */
enum { NOBODY, SHEET_WRITER, LENDER, ROAD, PLAN_WRITER };

/* True if this is 0 or the number of a refusal that some call gives. */
int is_given(uint64_t number);

/* The group of a number that is given. */
uint64_t group_of(uint64_t number);

/* Fails unless the number given is the expected one, with the header's line of that of the two
 * which stands first in the order of giving. */
void require_number(uint64_t given, uint64_t expected);

/* Copies a result, having made sure that every place was written and the group is the number's. */
void take_result(const struct run *run, uint64_t number, const uint64_t *result, size_t places,
                 uint64_t *into);

/* Fails unless the sheet that was lent still holds the input's bytes. */
void require_sheet_kept(const struct run *run, const uint8_t *sheet);

#endif
