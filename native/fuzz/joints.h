/* joints.h: which cabinets are joints, and what a plan has to do with them, by the header's words.
 * The sheets are accepted ones. */
#ifndef JOINTS_H
#define JOINTS_H

#include <stddef.h>
#include <stdint.h>

#include "loads.h"

/* Where a joint stands: it is the root, has cabinets above and under it, or above it alone. */
enum stand { AT_ROOT, IN_MIDDLE, AT_LEAF, STANDS };

enum stand stand_of(const uint8_t *sheet, size_t cabinet);

/* True if the cabinet, which is there, is a joint. */
int is_joint(const uint8_t *sheet, size_t cabinet);

/* How many joints there are. */
size_t count_joints(const uint8_t *sheet);

/* The joint of a number, which is taken modulo how many there are; there is one. */
uint16_t joint_of(const uint8_t *sheet, size_t number);

/* True if there is a joint that stands so. */
int has_joint(const uint8_t *sheet, enum stand stand);

/* True if one of so many places of a plan names a joint; cabinets that are not there are none. */
int uses_joint(const uint8_t *sheet, const uint16_t *plan, size_t places);

/* True if a stream of demand above 0 runs through a joint; the loads are those of a plan that uses
 * no joint. */
int crosses_joint(const uint8_t *sheet, const struct loads *loads);

#endif
