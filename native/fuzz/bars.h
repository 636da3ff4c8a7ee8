/* bars.h: the barred pairs of a random sheet. */
#ifndef BARS_H
#define BARS_H

#include <stdint.h>

#include "random.h"

/* Some of the numbers below another: so many, from the first on and past the last to 0. */
struct some {
    unsigned first, many;
};

struct bars {
    unsigned r, s, pairs; /* how many services, cabinets and pairs there are */
    int has_block;        /* there is a block of barred pairs, though perhaps without a pair */
    int all;              /* every pair is there */
    unsigned first, step; /* then the number of the first one, and how far the next is from it */
    struct some services; /* else those that are barred from a cabinet */
    struct some cabinets; /* and those that a service is barred from */
};

/* The pairs of a road with so many services and cabinets. */
struct bars draw_bars(struct random *random, unsigned r, unsigned s);

/* Every pair once, for a road with a service. */
struct bars bar_all(struct random *random, unsigned r, unsigned s);

/* Writes the pair that has this number in the sheet. */
void write_pair(struct random *random, const struct bars *bars, unsigned number, uint8_t *at);

#endif
