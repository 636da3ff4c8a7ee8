/* links.h: the links of a random sheet, made for a plan. */
#ifndef LINKS_H
#define LINKS_H

#include <stdint.h>

#include "random.h"

/* Gives each direction of a link the capacity that the plan needs there, or a little less. The plan
 * gives each service of the accepted sheet a word, which modulo s is its cabinet. */
void fit_links(struct random *random, uint8_t *bytes, const uint16_t *words);

#endif
