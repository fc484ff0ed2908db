/* Counting what holds: each check that fails is printed, and `verdict` is what a program ends with. */
#ifndef EXPECT_H
#define EXPECT_H

#include <stdint.h>
#include <stdio.h>

static unsigned checks, failures;

static inline void expect(const char *what, uint32_t found, uint32_t wanted)
{
    checks++;
    if (found != wanted) {
        failures++;
        printf("%s: found %lu, wanted %lu\n", what, (unsigned long)found, (unsigned long)wanted);
    }
}

static inline int verdict(void)
{
    printf("%u checks, %u failed\n", checks, failures);
    return failures != 0;
}

#endif
