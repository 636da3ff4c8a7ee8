/* tariffs.h: the tariff of a random input. */
#ifndef TARIFFS_H
#define TARIFFS_H

#include <stdint.h>

#include "input.h"
#include "random.h"

/* Chooses block price, slot price and tax rate: mostly within their limits. */
void draw_tariff(struct random *random, uint8_t choice[CHOICES]);

#endif
