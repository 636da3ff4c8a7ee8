/* span.h: a span of a pair of tables, and what an input says of it. */
#ifndef SPAN_H
#define SPAN_H

#include <stddef.h>

#include "input.h"

struct span {
    size_t first, number;          /* of its entries */
    size_t costs_len, choices_len; /* of the tables */
};

/* The span that the input names, where so many entries are needed. */
struct span input_span(const struct input *input, size_t needed);

/* The span that a call uses which names none, in tables of the lengths that the input says. */
struct span whole_span(const struct input *input, size_t needed);

/* The length of the shorter table. */
size_t shorter_table(const struct span *span);

/* True if the first entry plus the number of entries is above this length. */
int ends_past(const struct span *span, size_t length);

/* True if the first entry plus the number of entries is above every number of 64 bits. */
int sum_wraps(const struct span *span);

#endif
