/* What the C that `oracle types-c` writes is made of. A file declares its types, each entry a typedef and the type wanted once more as the
 * only member of a struct, so that offsetof can be asked about arrays and scalars, too. Then it has the compiler work out one array of
 * numbers: for each type its size, its alignment and the number of its leaves, and for each leaf its kind, size, alignment and offset. They
 * are printed as `oracle types` prints them. */
#include <float.h>
#include <stddef.h>
#include <stdio.h>

/* Scalars that are aligned to fewer bytes than they have, and to more; C has no arrays of the latter. */
#define BY(bytes) __attribute__((aligned(bytes)))
typedef int int_by_1 BY(1);
typedef long long long_long_by_4 BY(4);
typedef double double_by_2 BY(2);
typedef char char_by_8 BY(8);
typedef int int_by_64 BY(64);
typedef float float_by_16 BY(16);

#if LDBL_MANT_DIG == 64
#define LONG_DOUBLE 3
#elif LDBL_MANT_DIG == 113
#define LONG_DOUBLE 4
#else
#define LONG_DOUBLE 5 /* no kind */
#endif

#define KIND(value) _Generic((value), float: 1, double: 2, long double: LONG_DOUBLE, default: 0)
#define ALIGN(value) _Alignof(__typeof__(value))
#define AT(line, path) (((struct wanted_##line *)0)->type path)

#define TYPE(line, leaves) sizeof(AT(line, )), ALIGN(AT(line, )), leaves
#define LEAF(line, path) KIND(AT(line, path)), sizeof(AT(line, path)), ALIGN(AT(line, path)), offsetof(struct wanted_##line, type path)

static int print(const unsigned *number, size_t count)
{
    const unsigned *end = number + count;
    while (number < end) {
        unsigned leaves = number[2];
        printf("size %u align %u pieces", number[0], number[1]);
        for (number += 3; leaves > 0; leaves--, number += 4) {
            printf(" %u:%u:%u:%u", number[0], number[1], number[2], number[3]);
        }
        putchar('\n');
    }
    return ferror(stdout) || fflush(stdout);
}
