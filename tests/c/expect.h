/* Comparison of a value with the one expected. */
#ifndef EXPECT_H
#define EXPECT_H

#include <stdint.h>
#include <stdio.h>

static int failures = 0;

static void expect(const char *what, uint64_t got, uint64_t wanted)
{
    if (got != wanted) {
        printf("%s: got %lx, expected %lx\n", what, (unsigned long)got, (unsigned long)wanted);
        failures++;
    }
}

#endif /* EXPECT_H */
