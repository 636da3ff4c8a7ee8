/* damage_fourth.h: damage to the fourth block of a sheet, near each of its limits. */
#ifndef DAMAGE_FOURTH_H
#define DAMAGE_FOURTH_H

#include <stddef.h>
#include <stdint.h>

#include "random.h"

/* Damages the fourth block of a sheet that has a header, or gives it a bad one, and gives the
 * sheet's new length, at most MOST_DAMAGED. */
size_t damage_fourth(struct random *random, uint8_t *bytes, size_t length);

#endif
