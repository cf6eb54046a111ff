/*
 * What check.c and signatures.c share: the types of parameters and results, each under a short name, a call, and what a called function
 * does with what it finds.
 */
#ifndef CHECK_H
#define CHECK_H

#include <stdarg.h>
#include <stdint.h>
#include <string.h>

/* ---- types ---- */

/* A scalar's name is a letter. A record's are those of its members, with their number where all are the same; b is a byte. */
typedef signed char type_c;
typedef short type_w;
typedef int type_i;
typedef long type_l;
typedef void *type_p;
typedef __int128 type_q;
typedef float type_f;
typedef double type_d;
typedef long double type_x;
typedef __float128 type_h;

typedef struct {
} type_empty;

#define ARRAY_IN_RECORD(name, element, count) \
    typedef struct { \
        element of[count]; \
    } type_##name

ARRAY_IN_RECORD(b1, char, 1);
ARRAY_IN_RECORD(b2, char, 2);
ARRAY_IN_RECORD(b3, char, 3);
ARRAY_IN_RECORD(b5, char, 5);
ARRAY_IN_RECORD(b7, char, 7);
ARRAY_IN_RECORD(b8, char, 8);
ARRAY_IN_RECORD(b9, char, 9);
ARRAY_IN_RECORD(b15, char, 15);
ARRAY_IN_RECORD(b16, char, 16);
ARRAY_IN_RECORD(b17, char, 17);
ARRAY_IN_RECORD(b33, char, 33);
ARRAY_IN_RECORD(b40, char, 40);
ARRAY_IN_RECORD(w3, short, 3);
ARRAY_IN_RECORD(i3, int, 3);
ARRAY_IN_RECORD(l2, long, 2);
ARRAY_IN_RECORD(l3, long, 3);
ARRAY_IN_RECORD(l5, long, 5);
ARRAY_IN_RECORD(q1, __int128, 1);
ARRAY_IN_RECORD(f1, float, 1);
ARRAY_IN_RECORD(f2, float, 2);
ARRAY_IN_RECORD(f3, float, 3);
ARRAY_IN_RECORD(f4, float, 4);
ARRAY_IN_RECORD(f5, float, 5);
ARRAY_IN_RECORD(d1, double, 1);
ARRAY_IN_RECORD(d2, double, 2);
ARRAY_IN_RECORD(d3, double, 3);
ARRAY_IN_RECORD(x1, long double, 1);
ARRAY_IN_RECORD(x2, long double, 2);

typedef struct {
    long l;
    int i;
} type_li;

typedef struct {
    long l;
    double d;
} type_ld;

typedef struct {
    double d;
    long l;
} type_dl;

typedef struct {
    char c;
    double d;
} type_cd;

typedef struct {
    float f;
    int i;
} type_fi;

typedef struct {
    float f;
    long l;
} type_fl;

typedef struct {
    int i;
    float f[2];
} type_if2;

typedef struct {
    double d;
    float f;
} type_df;

typedef struct {
    long l;
    long double x;
} type_lx;

/* No type has more bytes. */
#define MOST_BYTES 48

/* ---- calls ---- */

/* A function, and the names of its types: of its result, v where there is none; of its parameters; and of what is passed behind the dots,
 * NULL where its parameters don't end in dots. */
typedef struct signature {
    const char *name;
    void (*function)(void);
    const char *result, *parameters, *dots;
} signature;

extern const signature signatures[];
extern const unsigned long signature_count;

/* ---- the called function's side ---- */

/* What it finds for its next parameter. */
void see(const void *value, uint64_t size);

/* What it is to return. */
extern uint8_t to_return[MOST_BYTES];

#endif
