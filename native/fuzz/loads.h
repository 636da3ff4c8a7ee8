/* loads.h: what a plan puts on the links of a road, and what it costs, by the header's words. The
 * sheets are accepted ones, and the cabinets of the plans are all there. */
#ifndef LOADS_H
#define LOADS_H

#include <stddef.h>
#include <stdint.h>

#include "lent.h"

/* What a stream takes of a direction beside its demand, if that is above 0. */
enum { FRAMING = 2 };

/* The directions of the link between a cabinet and its parent. */
enum { UP, DOWN, DIRECTIONS };

/* The field of a cabinet that tells the capacity of each direction. */
extern const size_t capacity_field[DIRECTIONS];

/* A direction that a stream runs along, by the cabinet at the lower end of its link. */
struct step {
    size_t cabinet;
    int direction;
};

/* The streams that run along one direction. */
struct load {
    uint64_t demand; /* theirs together */
    uint64_t framed; /* how many have a demand above 0 */
    uint64_t idle;   /* how many have a demand of 0 */
};

struct loads {
    struct load of[MOST_CABINETS][DIRECTIONS];
};

/* Gives how many directions the stream runs along; those up come in order, those down in reverse
 * order, mixed. */
size_t walk(const uint8_t *sheet, const uint16_t *plan, size_t stream,
            struct step steps[MOST_CABINETS]);

void reckon_loads(struct loads *loads, const uint8_t *sheet, const uint16_t *plan);

/* The load, with so much framing for each stream of demand above 0. */
uint64_t load_with(const struct load *load, uint64_t framing);

uint64_t capacity_of(const uint8_t *sheet, size_t cabinet, int direction);

uint64_t price_of(const uint8_t *sheet, size_t cabinet, int direction);

/* True if a direction has a load above its capacity, with so much framing. */
int has_overfull_line(const uint8_t *sheet, const struct loads *loads, uint64_t framing);

/* True if a stream of demand 0 runs along a direction of capacity 0. */
int has_idle_stream(const uint8_t *sheet, const struct loads *loads);

/* The cost of the plan, whose loads these are. */
uint64_t cost_of(const uint8_t *sheet, const uint16_t *plan, const struct loads *loads);

#endif
