/* rules.h: which of the refusals 1 to 9, 18 and 19 a sheet must get, by the header's words. */
#ifndef RULES_H
#define RULES_H

#include <stddef.h>
#include <stdint.h>

/* The number that applies, the first of them in the order of giving; 0 if none does. */
uint64_t sheet_refusal(const uint8_t *sheet, size_t length);

#endif
