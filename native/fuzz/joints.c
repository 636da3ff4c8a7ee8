/* joints.c: which cabinets are joints, and what a plan has to do with them, by the header's
 * words. */
#include "joints.h"

#include "layout.h"
#include "tables.h"

enum { PARENT = 0, CAPACITY = 1 };

enum stand stand_of(const uint8_t *sheet, size_t cabinet)
{
    if (cabinet == 0)
        return AT_ROOT;
    return has_child(sheet, cabinet) ? IN_MIDDLE : AT_LEAF;
}

int is_joint(const uint8_t *sheet, size_t cabinet)
{
    return field_at(sheet, CABINETS, cabinet, CAPACITY) == 0;
}

size_t count_joints(const uint8_t *sheet)
{
    size_t many = 0;
    size_t c;

    for (c = 0; c < count_of(sheet, CABINETS); c++)
        many += (size_t)is_joint(sheet, c);
    return many;
}

uint16_t joint_of(const uint8_t *sheet, size_t number)
{
    size_t left = number % count_joints(sheet);
    size_t c = 0;

    while (!is_joint(sheet, c) || left-- > 0)
        c++;
    return (uint16_t)c;
}

int has_joint(const uint8_t *sheet, enum stand stand)
{
    size_t c;

    for (c = 0; c < count_of(sheet, CABINETS); c++)
        if (is_joint(sheet, c) && stand_of(sheet, c) == stand)
            return 1;
    return 0;
}

int uses_joint(const uint8_t *sheet, const uint16_t *plan, size_t places)
{
    size_t i;

    for (i = 0; i < places; i++)
        if (plan[i] < count_of(sheet, CABINETS) && is_joint(sheet, plan[i]))
            return 1;
    return 0;
}

int crosses_joint(const uint8_t *sheet, const struct loads *loads)
{
    size_t c;

    for (c = 1; c < count_of(sheet, CABINETS); c++)
        if (loads->of[c][UP].framed + loads->of[c][DOWN].framed > 0
            && (is_joint(sheet, c) || is_joint(sheet, field_at(sheet, CABINETS, c, PARENT))))
            return 1;
    return 0;
}
