/* loads.c: what a plan puts on the links of a road, and what it costs, by the header's words. */
#include "loads.h"

#include <string.h>

#include "layout.h"

/* The fields of a cabinet. */
enum { PARENT = 0, PRICE = 2 };
const size_t capacity_field[DIRECTIONS] = {3, 5};
static const size_t price_field[DIRECTIONS] = {4, 6};

/* Parents have smaller numbers: while the ends differ, the larger is not above the other one. */
size_t walk(const uint8_t *sheet, const uint16_t *plan, size_t stream,
            struct step steps[MOST_CABINETS])
{
    size_t from = plan[field_at(sheet, STREAMS, stream, 0)];
    size_t to = plan[field_at(sheet, STREAMS, stream, 1)];
    size_t many = 0;

    while (from != to) {
        struct step step = {from > to ? from : to, from > to ? UP : DOWN};
        size_t parent = field_at(sheet, CABINETS, step.cabinet, PARENT);

        steps[many++] = step;
        if (step.direction == UP)
            from = parent;
        else
            to = parent;
    }
    return many;
}

void reckon_loads(struct loads *loads, const uint8_t *sheet, const uint16_t *plan)
{
    struct step steps[MOST_CABINETS];
    size_t stream;
    size_t i;

    memset(loads->of, 0, count_of(sheet, CABINETS) * sizeof *loads->of);
    for (stream = 0; stream < count_of(sheet, STREAMS); stream++) {
        uint64_t demand = field_at(sheet, STREAMS, stream, 2);
        size_t many = walk(sheet, plan, stream, steps);

        for (i = 0; i < many; i++) {
            struct load *load = &loads->of[steps[i].cabinet][steps[i].direction];

            load->demand += demand;
            load->framed += demand > 0;
            load->idle += demand == 0;
        }
    }
}

uint64_t load_with(const struct load *load, uint64_t framing)
{
    return load->demand + framing * load->framed;
}

uint64_t capacity_of(const uint8_t *sheet, size_t cabinet, int direction)
{
    return field_at(sheet, CABINETS, cabinet, capacity_field[direction]);
}

uint64_t price_of(const uint8_t *sheet, size_t cabinet, int direction)
{
    return field_at(sheet, CABINETS, cabinet, price_field[direction]);
}

int has_overfull_line(const uint8_t *sheet, const struct loads *loads, uint64_t framing)
{
    size_t c;
    int direction;

    for (c = 1; c < count_of(sheet, CABINETS); c++)
        for (direction = UP; direction < DIRECTIONS; direction++)
            if (load_with(&loads->of[c][direction], framing) > capacity_of(sheet, c, direction))
                return 1;
    return 0;
}

int has_idle_stream(const uint8_t *sheet, const struct loads *loads)
{
    size_t c;
    int direction;

    for (c = 1; c < count_of(sheet, CABINETS); c++)
        for (direction = UP; direction < DIRECTIONS; direction++)
            if (loads->of[c][direction].idle > 0 && capacity_of(sheet, c, direction) == 0)
                return 1;
    return 0;
}

uint64_t cost_of(const uint8_t *sheet, const uint16_t *plan, const struct loads *loads)
{
    uint64_t cost = 0;
    size_t i;
    int direction;

    for (i = 0; i < count_of(sheet, SERVICES); i++)
        cost += (uint64_t)field_at(sheet, SERVICES, i, 0)
                * field_at(sheet, CABINETS, plan[i], PRICE);
    for (i = 1; i < count_of(sheet, CABINETS); i++)
        for (direction = UP; direction < DIRECTIONS; direction++)
            cost += loads->of[i][direction].demand * price_of(sheet, i, direction);
    return cost;
}
