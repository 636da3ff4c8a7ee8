/* require.h: how a broken promise is told. */
#ifndef REQUIRE_H
#define REQUIRE_H

/* Prints the sentence of the header that does not hold, and aborts; nothing if it holds. */
void require(int holds, const char *sentence);

#endif
