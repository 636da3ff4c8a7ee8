/* example.c: the two sheets in examples/ that the fuzz target knows. */
#include "example.h"

#include "input.h"

enum { ROOT_CAPACITY = 22 };

size_t example_sheet(uint8_t *bytes, int without_room)
{
    static const uint16_t words[EXAMPLE_LENGTH / 2] = {
        2, 3, 1, 16, 20, 62, 68, 0, /* header */
        2, 2,                       /* services */
        65535, 4, 5, 0, 0, 0, 0,    /* cabinet 0, the root */
        0, 3, 1, 6, 2, 6, 1,        /* cabinet 1 */
        0, 3, 2, 2, 1, 6, 1,        /* cabinet 2 */
        0, 1, 3                     /* the stream */
    };
    size_t i;

    for (i = 0; i < EXAMPLE_LENGTH / 2; i++)
        put_word(bytes, 2 * i, words[i]);
    if (without_room)
        put_word(bytes, ROOT_CAPACITY, 0);
    return EXAMPLE_LENGTH;
}
