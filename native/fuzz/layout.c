/* layout.c: where the blocks of a sheet lie, by what the sheet says of them. */
#include "layout.h"

#include "input.h"

const size_t offset_word[BLOCKS] = {6, 8, 10, 14};
const size_t fields_of[BLOCKS] = {1, 7, 3, 2};

/* The bytes of a block before its first record. */
static const size_t bytes_before[BLOCKS] = {0, 0, 0, 2};

size_t offset_of(const uint8_t *sheet, int block)
{
    return word_at(sheet, offset_word[block]);
}

size_t count_of(const uint8_t *sheet, int block)
{
    if (block != BARRED)
        return word_at(sheet, 2 * (size_t)block);
    return offset_of(sheet, BARRED) == 0 ? 0 : word_at(sheet, offset_of(sheet, BARRED));
}

size_t place_of(const uint8_t *sheet, int block, size_t number, size_t field)
{
    return offset_of(sheet, block) + bytes_before[block] + 2 * (fields_of[block] * number + field);
}

size_t end_of(const uint8_t *sheet, int block)
{
    return place_of(sheet, block, count_of(sheet, block), 0);
}

uint16_t field_at(const uint8_t *sheet, int block, size_t number, size_t field)
{
    return word_at(sheet, place_of(sheet, block, number, field));
}

/* The later start lies before the earlier end; a block of no bytes ends where it starts. */
int share_byte(const uint8_t *sheet, int one, int other)
{
    size_t start = offset_of(sheet, one);
    size_t end = end_of(sheet, one);

    if (start < offset_of(sheet, other))
        start = offset_of(sheet, other);
    if (end > end_of(sheet, other))
        end = end_of(sheet, other);
    return start < end;
}
