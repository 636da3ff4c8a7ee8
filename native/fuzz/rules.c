/* rules.c: which of the refusals 1 to 9, 18 and 19 a sheet must get, by the header's words. */
#include "rules.h"

#include "input.h"
#include "layout.h"

enum { MOST_AMOUNT = 10000, MOST_PAIRS = 2000, NO_PARENT = 65535 };

/* Fields of the first three blocks from this one on are demands, capacities and prices. */
static const size_t first_amount[BARRED] = {0, 1, 2};

static int is_outside_limits(const uint8_t *sheet)
{
    return count_of(sheet, SERVICES) > 10 || count_of(sheet, CABINETS) < 1
           || count_of(sheet, CABINETS) > 200 || count_of(sheet, STREAMS) > 100;
}

static int has_block_outside(const uint8_t *sheet, size_t length)
{
    int block;

    for (block = 0; block < BARRED; block++)
        if (offset_of(sheet, block) < HEADER || end_of(sheet, block) > length)
            return 1;
    return 0;
}

static int has_large_amount(const uint8_t *sheet)
{
    int block;
    size_t i;
    size_t field;

    for (block = 0; block < BARRED; block++)
        for (i = 0; i < count_of(sheet, block); i++)
            for (field = first_amount[block]; field < fields_of[block]; field++)
                if (field_at(sheet, block, i, field) > MOST_AMOUNT)
                    return 1;
    return 0;
}

static int has_wrong_parent(const uint8_t *sheet)
{
    size_t i;

    for (i = 1; i < count_of(sheet, CABINETS); i++)
        if (field_at(sheet, CABINETS, i, 0) >= i)
            return 1;
    return field_at(sheet, CABINETS, 0, 0) != NO_PARENT;
}

static int has_wrong_end(const uint8_t *sheet)
{
    size_t r = count_of(sheet, SERVICES);
    size_t i;

    for (i = 0; i < count_of(sheet, STREAMS); i++) {
        size_t from = field_at(sheet, STREAMS, i, 0);
        size_t to = field_at(sheet, STREAMS, i, 1);
        if (from >= r || to >= r || from == to)
            return 1;
    }
    return 0;
}

static int has_link_above_root(const uint8_t *sheet)
{
    size_t field;

    for (field = 3; field < fields_of[CABINETS]; field++)
        if (field_at(sheet, CABINETS, 0, field) != 0)
            return 1;
    return 0;
}

/* The count is looked at only where it lies within the sheet. */
static int has_wrong_fourth(const uint8_t *sheet, size_t length)
{
    size_t offset = offset_of(sheet, BARRED);

    if (offset == 0)
        return 0;
    if (offset < HEADER || offset + 2 > length)
        return 1;
    return count_of(sheet, BARRED) > MOST_PAIRS || end_of(sheet, BARRED) > length
           || share_byte(sheet, BARRED, SERVICES) || share_byte(sheet, BARRED, CABINETS)
           || share_byte(sheet, BARRED, STREAMS);
}

static int has_wrong_pair(const uint8_t *sheet)
{
    size_t i;

    for (i = 0; i < count_of(sheet, BARRED); i++)
        if (field_at(sheet, BARRED, i, 0) >= count_of(sheet, SERVICES)
            || field_at(sheet, BARRED, i, 1) >= count_of(sheet, CABINETS))
            return 1;
    return 0;
}

uint64_t sheet_refusal(const uint8_t *sheet, size_t length)
{
    if (length < HEADER)
        return 1;
    if (is_outside_limits(sheet))
        return 2;
    if (word_at(sheet, LENGTH_WORD) != length)
        return 3;
    if (has_block_outside(sheet, length))
        return 4;
    if (share_byte(sheet, SERVICES, CABINETS) || share_byte(sheet, CABINETS, STREAMS)
        || share_byte(sheet, STREAMS, SERVICES))
        return 5;
    if (has_large_amount(sheet))
        return 6;
    if (has_wrong_parent(sheet))
        return 7;
    if (has_wrong_end(sheet))
        return 8;
    if (has_link_above_root(sheet))
        return 9;
    if (has_wrong_fourth(sheet, length))
        return 18;
    return has_wrong_pair(sheet) ? 19 : 0;
}
