/* layout.h: where the blocks of a sheet lie, by what the sheet says of them. */
#ifndef LAYOUT_H
#define LAYOUT_H

#include <stddef.h>
#include <stdint.h>

enum { HEADER = 16, LENGTH_WORD = 12 };
enum { SERVICES, CABINETS, STREAMS, BARRED, BLOCKS };

/* The byte of the header at which each block's offset stands. */
extern const size_t offset_word[BLOCKS];

/* How many 16-bit fields a record of each block has. */
extern const size_t fields_of[BLOCKS];

/* The byte at which a block starts; 0 for barred pairs if there are none. */
size_t offset_of(const uint8_t *sheet, int block);

/* How many records a block has. For barred pairs the first word of their block says so, which must
 * lie within the sheet. */
size_t count_of(const uint8_t *sheet, int block);

/* The byte at which a field of a record stands. */
size_t place_of(const uint8_t *sheet, int block, size_t number, size_t field);

/* The byte after the last one of a block that is there. */
size_t end_of(const uint8_t *sheet, int block);

/* A field of a record, in a sheet whose blocks end within it. */
uint16_t field_at(const uint8_t *sheet, int block, size_t number, size_t field);

/* True if some byte belongs to both blocks. */
int share_byte(const uint8_t *sheet, int one, int other);

#endif
