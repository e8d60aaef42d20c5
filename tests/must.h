/* What the tests of the bounds share: the call at hand, and what must hold of it. */
#ifndef MUST_H
#define MUST_H

#include <stdio.h>
#include <stdlib.h>

static const char *volatile current = "nothing";

static void must(int holds, const char *what)
{
    if (!holds) {
        fprintf(stderr, "%s: %s\n", current, what);
        exit(1);
    }
}

#endif
