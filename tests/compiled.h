/*
 * What the programs have in common that hold the library against compiled C (tests/stack, tests/varargs): how many things failed, whether
 * enough was seen for that to mean something, and by which compiler a program was made.
 */
#ifndef COMPILED_H
#define COMPILED_H

#include <stdio.h>

#define COUNT(array) (sizeof(array) / sizeof((array)[0]))

static unsigned long failed;

static void was_seen(const char *what, unsigned long count, unsigned long least)
{
    if (count >= least)
        return;
    failed++;
    printf("FAILED %s: seen %lu times, and %lu are wanted\n", what, count, least);
}

static void print_compiler(void)
{
#ifdef __clang__
    printf("clang %d.%d.%d", __clang_major__, __clang_minor__, __clang_patchlevel__);
#else
    printf("gcc %d.%d.%d", __GNUC__, __GNUC_MINOR__, __GNUC_PATCHLEVEL__);
#endif
}

#endif
