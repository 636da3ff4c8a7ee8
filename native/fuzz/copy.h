/* copy.h: the tidy copy of a sheet, by the header's words. */
#ifndef COPY_H
#define COPY_H

#include <stddef.h>
#include <stdint.h>

#include "lent.h"

struct copy {
    size_t length;
    size_t pairs_at; /* the byte at which its barred pairs stand, or would */
    uint8_t bytes[MOST_COPY];
};

/* Writes the copy of an accepted sheet. */
void copy_tidy(struct copy *copy, const uint8_t *sheet);

#endif
