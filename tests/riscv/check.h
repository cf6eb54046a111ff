/*
 * What the calls that generate.c writes share with check.c and machine.S: the machine, which is the argument registers and the stack as one
 * run of bytes, and where in it the bytes of a value are.
 */
#ifndef CHECK_H
#define CHECK_H

/* The machine: a0 to a7, then fa0 to fa7, eight bytes each, then what stands from the first stack argument on. */
#define INTEGERS_AT 0
#define FLOATS_AT 64
#define STACK_AT 128
#define STACK_BYTES 512
#define MACHINE_BYTES (STACK_AT + STACK_BYTES)

#define MOST_ARGUMENTS 14

/* No type has more bytes. */
#define MOST_BYTES 64

/* The values of a call stand one behind the other, each at a multiple of MOST_BYTES, the result first. */
#define VALUES_BYTES ((MOST_ARGUMENTS + 1) * MOST_BYTES)

#ifndef __ASSEMBLER__

#include <stdarg.h>
#include <stdint.h>

#define BY(bytes) __attribute__((aligned(bytes)))

/* Some bytes of a value: the machine has them at `at`, or behind the address that it has there. */
typedef struct place {
    uint16_t value; /* 0 is the result, 1 the first argument */
    uint16_t offset, count;
    uint16_t at;
    uint16_t is_behind;
} place;

typedef struct call {
    const char *signature;
    void (*caller)(void);   /* passes the arguments, by `capturing`, and stores the result */
    void (*function)(void); /* stores its parameters, and returns the result */
    const place *places;    /* those of the result first */
    uint16_t of_result, of_all;
    uint16_t values;
} call;

/* All calls; generated. */
extern const call *const calls[];
extern const unsigned call_count;

/* What is passed and returned, which no function changes, and what was found. */
extern BY(16) uint8_t given[VALUES_BYTES];
extern BY(16) uint8_t found[VALUES_BYTES];

#define GIVEN(type, value) (*(const type *)(given + (value) * MOST_BYTES))
#define FOUND(type, value) (*(type *)(found + (value) * MOST_BYTES))

/* The function that every caller calls, as one of its own types. It is a variable so that compilers know nothing of it. */
extern void (*const capturing)(void);

#endif
#endif
