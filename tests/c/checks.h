/* How the tests of this folder count: each check holds a number that is expected against the one that was got. */
#ifndef CHECKS_H
#define CHECKS_H

#include <stdio.h>

#include "barkpaddle.h"

#define COUNT(array) (sizeof(array) / sizeof((array)[0]))

static unsigned long passed;
static unsigned long failed;

static void check_number(const char *place, const char *what, uint64_t expected, uint64_t got)
{
    if (expected == got) {
        passed++;
        return;
    }
    failed++;
    if (failed <= 40)
        printf("FAILED %s: %s is %llu, not %llu\n", place, what, (unsigned long long)got, (unsigned long long)expected);
}

/* Word `i` of a buffer that nobody has written to. */
static uint64_t untouched(uint64_t i)
{
    return UINT64_C(0xA5A5A5A500000000) + i;
}

#endif
