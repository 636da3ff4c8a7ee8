/* random.c: a small source of random numbers (splitmix64), the same for the same seed. */
#include "random.h"

uint64_t random_next(struct random *random)
{
    uint64_t mixed = random->state += 0x9E3779B97F4A7C15u;

    mixed = (mixed ^ (mixed >> 30)) * 0xBF58476D1CE4E5B9u;
    mixed = (mixed ^ (mixed >> 27)) * 0x94D049BB133111EBu;
    return mixed ^ (mixed >> 31);
}

unsigned random_below(struct random *random, unsigned n)
{
    return (unsigned)((random_next(random) >> 32) % n);
}

int random_once_in(struct random *random, unsigned n)
{
    return random_below(random, n) == 0;
}
