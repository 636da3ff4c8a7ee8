/* dearest.h: an input with the dearest bill that there can be. */
#ifndef DEAREST_H
#define DEAREST_H

#include <stddef.h>
#include <stdint.h>

#include "random.h"

/* Completes an input that has its choices: those of the plan and, every other time, of the tariff
 * are changed, and the planner's output is too short, for it would take long. Gives the input's
 * size. */
size_t draw_dearest(struct random *random, uint8_t *bytes);

#endif
