/* require.c: how a broken promise is told. */
#include "require.h"

#include <stdio.h>
#include <stdlib.h>

void require(int holds, const char *sentence)
{
    if (holds)
        return;
    fprintf(stderr, "broken: %s\n", sentence);
    abort();
}
