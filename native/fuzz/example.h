/* example.h: the two sheets in examples/ that the fuzz target knows. */
#ifndef EXAMPLE_H
#define EXAMPLE_H

#include <stddef.h>
#include <stdint.h>

enum { EXAMPLE_LENGTH = 68 };

/* Writes M, or M0, which differ in the capacity of the root, and gives the sheet's length. */
size_t example_sheet(uint8_t *bytes, int without_room);

#endif
