/* spliced.h: roads whose joints are others than those of the sheet, for libraries that are wrong on
 * purpose. The sheets are accepted ones. */
#ifndef SPLICED_H
#define SPLICED_H

#include "faults.h"

/* True if a wrong library takes the cabinet for a joint. */
typedef int splices(const uint8_t *sheet, size_t cabinet);

/* No cabinet; a joint that is the root; joints but for the root, but for those in the middle, but
 * for those at leaves; every cabinet of price 0 and no other; cabinets of capacity 1 too; cabinets
 * under a joint too. */
splices no_joint;
splices only_root;
splices but_root;
splices but_middle;
splices but_leaves;
splices of_price_zero;
splices of_capacity_one;
splices under_joint;

/* A sheet of the same road with these joints: a joint that is to be none holds services of demand
 * 0, and a cabinet that is to be one has capacity 0. The memory is the same on every call. */
struct sheet spliced(struct sheet sheet, splices *splices);

#endif
