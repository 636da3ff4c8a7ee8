/* tables.c: a copy of the tables that gz_keep and gz_edit leave, and what can be read there. */
#include "tables.h"

#include <string.h>

#include "layout.h"

static size_t lesser(size_t one, size_t other)
{
    return one < other ? one : other;
}

void take_tables(struct tables *tables, const struct workspace *lent)
{
    memcpy(tables->costs, lent->costs, lent->needed * sizeof *lent->costs);
    memcpy(tables->choices, lent->choices, lent->needed * sizeof *lent->choices);
}

void put_tables(const struct tables *tables, const struct workspace *lent)
{
    memcpy(lent->costs, tables->costs,
           lesser(lent->needed, lent->costs_len) * sizeof *lent->costs);
    memcpy(lent->choices, tables->choices,
           lesser(lent->needed, lent->choices_len) * sizeof *lent->choices);
}

void copy_tables(struct tables *into, const struct tables *from, size_t entries)
{
    memcpy(into->costs, from->costs, entries * sizeof *from->costs);
    memcpy(into->choices, from->choices, entries * sizeof *from->choices);
}

int same_tables(const struct tables *one, const struct tables *other, size_t entries)
{
    return memcmp(one->costs, other->costs, entries * sizeof *one->costs) == 0
           && memcmp(one->choices, other->choices, entries * sizeof *one->choices) == 0;
}

uint64_t splits_told(const struct tables *tables, size_t r, size_t s)
{
    uint64_t sum = 0;
    size_t c;

    for (c = 1; c < s; c++)
        sum += tables->choices[c << r];
    return sum;
}

/* Takes the rest of the set that a cabinet holds to each of its children, the last one first. */
static void hand_down(const struct tables *tables, const uint8_t *sheet, size_t cabinet,
                      size_t *held)
{
    size_t r = count_of(sheet, SERVICES);
    size_t c;

    for (c = count_of(sheet, CABINETS) - 1; c > cabinet && held[cabinet] != 0; c--)
        if (field_at(sheet, CABINETS, c, 0) == cabinet) {
            size_t stays = tables->choices[(c << r) + held[cabinet]] & held[cabinet];
            held[c] = held[cabinet] & ~stays;
            held[cabinet] = stays;
        }
}

void follow_choices(const struct tables *tables, const uint8_t *sheet, size_t cabinet, size_t set,
                    uint16_t *plan)
{
    size_t held[MOST_CABINETS] = {0};
    size_t c;
    size_t i;

    held[cabinet] = set;
    for (c = cabinet; c < count_of(sheet, CABINETS); c++) {
        hand_down(tables, sheet, c, held);
        for (i = 0; held[c] >> i != 0; i++)
            if (held[c] >> i & 1)
                plan[i] = (uint16_t)c;
    }
}

/* Parents have smaller numbers. */
int is_under(const uint8_t *sheet, size_t cabinet, size_t upper)
{
    while (cabinet > upper)
        cabinet = field_at(sheet, CABINETS, cabinet, 0);
    return cabinet == upper;
}

int has_child(const uint8_t *sheet, size_t cabinet)
{
    size_t c;

    for (c = cabinet + 1; c < count_of(sheet, CABINETS); c++)
        if (field_at(sheet, CABINETS, c, 0) == cabinet)
            return 1;
    return 0;
}
