/* arena.h: memory to lend, in pages of its own between two guards that no access survives. */
#ifndef ARENA_H
#define ARENA_H

#include <stddef.h>

/* Where a piece lies: its first byte follows a guard, or its last byte precedes one. */
enum place { AT_START, AT_END };

struct arena {
    const char *name;
    size_t most;          /* the bytes that can be lent */
    unsigned char *start; /* null until the first piece is lent */
    size_t size;          /* the bytes between the guards */
    struct arena *next;   /* the arena mapped before this one */
};

/* Lends a piece of the arena, the same memory on every call. At its start the piece is aligned for
 * every type, at its end for any type whose size divides `bytes`. */
void *arena_lend(struct arena *arena, size_t bytes, enum place place);

#endif
