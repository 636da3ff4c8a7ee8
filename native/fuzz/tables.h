/* tables.h: a copy of the tables that gz_keep and gz_edit leave, and what can be read there. */
#ifndef TABLES_H
#define TABLES_H

#include <stddef.h>
#include <stdint.h>

#include "lent.h"
#include "workspace.h"

/* The highest cost, and what stands where there is no way to place a set. */
#define MOST_COST ((uint64_t)1000000000000000)
#define NO_WAY (MOST_COST + 1)

struct tables {
    uint64_t costs[MOST_ENTRIES];
    uint16_t choices[MOST_ENTRIES];
};

/* Copies the first s * 2^r entries of tables that are lent and long enough. */
void take_tables(struct tables *tables, const struct workspace *lent);

/* Puts the first s * 2^r entries into tables that are lent, as far as these are long enough. */
void put_tables(const struct tables *tables, const struct workspace *lent);

/* Copies so many entries of both tables. */
void copy_tables(struct tables *into, const struct tables *from, size_t entries);

/* True if as many entries of both are the same. */
int same_tables(const struct tables *one, const struct tables *other, size_t entries);

/* The sum of the entries of the empty set in the choices, cabinet 0 apart. */
uint64_t splits_told(const struct tables *tables, size_t r, size_t s);

/* Places a set of services on a cabinet and those under it, as the choices tell; an entry is taken
 * for what it has in common with the set. Other services keep their places in the plan. */
void follow_choices(const struct tables *tables, const uint8_t *sheet, size_t cabinet, size_t set,
                    uint16_t *plan);

/* True if the cabinet is the upper one, or lies under it. */
int is_under(const uint8_t *sheet, size_t cabinet, size_t upper);

/* True if the cabinet has cabinets under it. */
int has_child(const uint8_t *sheet, size_t cabinet);

#endif
