/* splices.h: the joints of a random sheet. */
#ifndef SPLICES_H
#define SPLICES_H

#include <stdint.h>

#include "random.h"

/* Makes joints of some or all cabinets of an accepted sheet, by where they stand, and gives some
 * services a demand of 0, which would fit on a joint. */
void splice(struct random *random, uint8_t *bytes);

#endif
