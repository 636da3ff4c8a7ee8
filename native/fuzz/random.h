/* random.h: a small source of random numbers (splitmix64), the same for the same seed. */
#ifndef RANDOM_H
#define RANDOM_H

#include <stdint.h>

struct random {
    uint64_t state;
};

uint64_t random_next(struct random *random);

/* A number below n, which is above 0. */
unsigned random_below(struct random *random, unsigned n);

/* True once in n times. */
int random_once_in(struct random *random, unsigned n);

#endif
