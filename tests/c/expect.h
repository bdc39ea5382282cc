/* What the C tests share: a number that must be as wanted, and how many were not. */
#ifndef EXPECT_H
#define EXPECT_H

#include <stdio.h>

static int failures = 0;

static void expect(const char *what, unsigned long got, unsigned long wanted)
{
    if (got != wanted) {
        printf("%s: %lu, not %lu\n", what, got, wanted);
        failures++;
    }
}

#endif
