/*
 * What check.c and the generated files share: the scalars that a call passes behind the dots, the records among the named parameters, and
 * the body of a variadic function, which reads its list by va_arg and then has check.c read it through the library.
 */
#ifndef CHECK_H
#define CHECK_H

#include <stdarg.h>
#include <stdint.h>
#include <string.h>

#define MOST_SCALARS 40

/* C promotes a bare char, short or float behind the dots, and leaves a record of one as it is. */
typedef struct one_byte {
    char c;
} one_byte;

typedef struct two_bytes {
    short s;
} two_bytes;

typedef struct one_single {
    float f;
} one_single;

/* A scalar behind the dots. A member's name is the letter of its type in a list. */
typedef union value {
    one_byte b;
    two_bytes w;
    int i;
    long l;
    void *p;
    __int128 q;
    one_single s;
    double d;
    long double x;
    __float128 f;
    uint8_t bytes[16];
} value;

/* Named parameters: one register of each bank, memory, and a result that a hidden pointer leads to. */
typedef struct pair {
    long l;
    double d;
} pair;

typedef struct triple {
    long l[3];
} triple;

typedef struct large {
    long l[5];
} large;

extern const pair a_pair;
extern const triple a_triple;

/* ---- the caller's side ---- */

/* What the next call passes behind the dots; `begin` fills it. */
extern value passed[MOST_SCALARS];

/* Before a call: its number, a letter for its result and one for each named parameter, and one for each scalar behind the dots. */
void begin(int number, const char *named, const char *scalars);

/* All calls; generated. */
extern const unsigned long call_count;
void all_calls(void);

/* ---- the callee's side ---- */

/* The list as it is at the start, and where the argument area begins; answers the letters of the scalars. */
const char *start_reading(va_list list, const uint8_t *area);

/* Whether va_arg is to read the next scalar. Where it isn't, the list has been moved on by hand. */
int va_arg_reads(char letter, va_list list);

/* What va_arg read, and the list as it is behind it. */
void note(const value *v, va_list list);

/* Reads the list that was noted through the library, and compares. */
void check_call(void);

static inline __attribute__((always_inline)) void by_va_arg(char letter, va_list list, value *v)
{
    switch (letter) {
    case 'b':
        v->b = va_arg(list, one_byte);
        break;
    case 'w':
        v->w = va_arg(list, two_bytes);
        break;
    case 'i':
        v->i = va_arg(list, int);
        break;
    case 'l':
        v->l = va_arg(list, long);
        break;
    case 'p':
        v->p = va_arg(list, void *);
        break;
    case 'q':
        v->q = va_arg(list, __int128);
        break;
    case 's':
        v->s = va_arg(list, one_single);
        break;
    case 'd':
        v->d = va_arg(list, double);
        break;
    case 'x':
        v->x = va_arg(list, long double);
        break;
    default:
        v->f = va_arg(list, __float128);
    }
}

static inline __attribute__((always_inline)) void read_list(va_list list, const uint8_t *area)
{
    const char *scalar;

    for (scalar = start_reading(list, area); *scalar != 0; scalar++) {
        value v;

        memset(&v, 0, sizeof v);
        if (va_arg_reads(*scalar, list))
            by_va_arg(*scalar, list, &v);
        note(&v, list);
    }
    check_call();
}

/*
 * The body of a variadic function, behind its last named parameter. Above the frame's address are the caller's frame pointer and the return
 * address, then the argument area, with the named parameters that are on the stack at its front.
 */
#define READ_BEHIND(last)                                                  \
    do {                                                                   \
        va_list list;                                                      \
                                                                           \
        va_start(list, last);                                              \
        read_list(list, (const uint8_t *)__builtin_frame_address(0) + 16); \
        va_end(list);                                                      \
    } while (0)

#endif
