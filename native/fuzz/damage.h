/* damage.h: blind damage to a sheet, near the limits of the header. */
#ifndef DAMAGE_H
#define DAMAGE_H

#include <stddef.h>
#include <stdint.h>

#include "random.h"

/* A sheet of this length is longer than its length word can say. */
enum { MOST_DAMAGED = 65536 + 16 };

/* Damages a sheet in one to three ways and gives its new length, at most MOST_DAMAGED. */
size_t damage_sheet(struct random *random, uint8_t *bytes, size_t length);

#endif
