/* sharing.h: two roads in one pair of tables, each in a span of its own. */
#ifndef SHARING_H
#define SHARING_H

#include "lent.h"

/* True for every other input: its road shares tables with another. */
int shares_tables(const struct input *input);

/* Plans, keeps and edits the road of the chain that was run last, and M between, each with its own
 * output. After every call each road must have what its own calls alone leave. */
void share_tables(const struct run *run);

#endif
