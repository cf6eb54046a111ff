/*
 * Where some versions of clang part from the psABI or from their own va_arg, and which of it this compiler does: tried before anything is
 * compared, by the programs of tests/stack and tests/varargs. gcc isn't asked: nothing is forgiven it.
 */
#ifndef DEPARTURES_H
#define DEPARTURES_H

#include <stdarg.h>
#include <stdint.h>
#include <stdio.h>
#include <string.h>

/* With one register left a caller puts half of an __int128 in it, or gives it to nobody; on the stack it doesn't align one; behind the dots
 * it puts a __float128 in a register, where va_arg doesn't look. Each has its name from docs/COMPILERS.md. */
enum departure { NONE, WIDE_IS_SPLIT, WIDE_SPENDS, WIDE_IS_UNALIGNED, QUAD_IS_MISSED, DEPARTURES };

static const char *const departure_names[] = {"", "amd64-int128", "amd64-int128-next", "varargs-int128", "varargs-float128"};

static int departs[DEPARTURES];

/* A va_list as the psABI has it (3.5.7). */
typedef struct sysv_list {
    uint32_t gp_offset;
    uint32_t fp_offset;
    const uint8_t *overflow_arg_area;
    const uint8_t *reg_save_area;
} sysv_list;

_Static_assert(sizeof(sysv_list) == sizeof(va_list), "a va_list isn't the psABI's");

static inline sysv_list copy_of(va_list list)
{
    sysv_list copy;

    memcpy(&copy, list, sizeof copy);
    return copy;
}

#ifdef __clang__
/* The words of the stack behind five named integers. */
static __attribute__((noinline)) void stack_words(long words[3], long b, long c, long d, long e, ...)
{
    va_list list;

    (void)b, (void)c, (void)d;
    va_start(list, e);
    memcpy(words, copy_of(list).overflow_arg_area, 3 * sizeof *words);
    va_end(list);
}

/* An __int128 of the halves 1 and 2, with one register left, and with none and a long before it. By the psABI the stack has 1, 2 and 4,
 * then 3, a hole and 1. */
static void try_wide(void)
{
    const __int128 wide = ((__int128)2 << 64) + 1;
    long words[3];

    stack_words(words, 0, 0, 0, 0, wide, 3L, 4L);
    departs[WIDE_IS_SPLIT] = words[0] == 2;
    departs[WIDE_SPENDS] = words[0] == 1 && words[2] == 3;
    stack_words(words, 0, 0, 0, 0, 0L, 3L, wide);
    departs[WIDE_IS_UNALIGNED] = words[2] == 2;
}
#else
static void try_wide(void)
{
}
#endif

/* How often each was met that this compiler does: "WHAT 3 PER name, 1 PER name". */
static void print_departures(const char *what, const char *per, const unsigned long met[DEPARTURES])
{
    const char *before = what;
    int i;

    for (i = NONE + 1; i < DEPARTURES; i++)
        if (departs[i]) {
            printf("%s %lu %s %s", before, met[i], per, departure_names[i]);
            before = ",";
        }
}

#endif
