/* target.h: the fuzz target. */
#ifndef TARGET_H
#define TARGET_H

#include <stddef.h>
#include <stdint.h>

/* Makes the calls on one input (see input.h), and counts what it met (see tally.h). Aborts if one
 * breaks a promise of the header. */
int LLVMFuzzerTestOneInput(const uint8_t *data, size_t size);

#endif
