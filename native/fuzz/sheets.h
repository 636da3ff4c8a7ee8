/* sheets.h: random sheets that keep every rule of the header. */
#ifndef SHEETS_H
#define SHEETS_H

#include <stddef.h>
#include <stdint.h>

#include "random.h"

enum { MOST_ROAD_SHEET = 12000 };

/* Writes a sheet of at most MOST_ROAD_SHEET bytes and gives its length. In every other sheet the
 * links are made for the plan that the words say (see links.h), and in every fourth some cabinets
 * are made joints (see splices.h). */
size_t draw_sheet(struct random *random, uint8_t *bytes, const uint16_t *words);

#endif
