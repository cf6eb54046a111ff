/*
 * Holds what a compiler makes of the calls that generate.c wrote against where the library says that each of their bytes is, from both
 * sides:
 *
 *     a caller that the compiler made calls `capture`, which finds the arguments in registers and on the stack, and hands back the result
 *     `enter` calls a function that the compiler made, with the arguments in registers and on the stack, and finds the result
 *
 * Every byte of a value differs from those around it, and from what stands where no value is. Padding isn't compared, nor what is above a
 * narrow value in its register.
 *
 * check NAME: prints how many calls differ, behind the name. Each is shown with the first thing that isn't where it should be, up to forty
 * of them, and the exit status is 1. The program has no C library: for two of the ABIs there is none.
 */
#include <stddef.h>

#include "check.h"

/* What stands in no value. Above a narrow float a register has ones, which say that it is one. */
#define NOTHING 0
#define ABOVE_FLOAT 0xff
/* Bytes of values are 1 to this. It is a prime, so that no two words of a call are the same. */
#define MOST_IN_BYTE 251

#define MOST_SHOWN 40

BY(16) uint8_t machine[MACHINE_BYTES];
BY(16) uint8_t given[VALUES_BYTES], found[VALUES_BYTES];

/* What goes by reference to a function that is entered, and what comes back from it so. */
static BY(16) uint8_t copies[VALUES_BYTES];

/* The call that is looked at. */
static unsigned number;
static const call *now;
static int now_differs;

static unsigned long values, differ;

/* ---- machine.S, and what it calls ---- */

void capture(void);
void enter(void (*function)(void));
long system_call(long a, long b, long c, long d, long number);

void captured(void);
int check(const char *name);

void (*const capturing)(void) = capture;

/* ---- what a C library has, the first two for what compilers make of C ---- */

void *memcpy(void *restrict to, const void *restrict from, size_t count)
{
    uint8_t *t = to;
    const uint8_t *f = from;

    while (count-- > 0)
        *t++ = *f++;
    return to;
}

void *memset(void *to, int byte, size_t count)
{
    uint8_t *t = to;

    while (count-- > 0)
        *t++ = (uint8_t)byte;
    return to;
}

static int same(const uint8_t *a, const uint8_t *b, size_t count)
{
    while (count-- > 0)
        if (*a++ != *b++)
            return 0;
    return 1;
}

static void print(const char *text)
{
    const char *end = text;

    while (*end != 0)
        end++;
    system_call(1, (long)text, end - text, 0, 64); /* write */
}

static void print_number(unsigned long n)
{
    char digits[21];
    char *at = digits + sizeof digits;

    *--at = 0;
    do
        *--at = (char)('0' + n % 10);
    while ((n /= 10) > 0);
    print(at);
}

/* ---- what differs ---- */

/* Who has the bytes of a place where the library says, or hasn't. */
enum moment { PASSED, TAKEN_BACK, ENTERED, RETURNED };

static const char *const moments[] = {
    " as the caller passes it", " as the caller finds it", " as the function finds it", " as the function returns it"};

static const uint8_t *bytes_of(const place *p)
{
    return given + p->value * MOST_BYTES + p->offset;
}

static void print_call(void)
{
    print("FAILED call ");
    print_number(number);
    print(", ");
    print(now->signature);
    print(": ");
}

static void print_at(unsigned at)
{
    if (at >= STACK_AT) {
        print("stack + ");
        print_number(at - STACK_AT);
        return;
    }
    print(at >= FLOATS_AT ? "fa" : "a");
    print_number(at % FLOATS_AT / 8);
    if (at % 8 != 0) {
        print(" + ");
        print_number(at % 8);
    }
}

/* Where the machine has the bytes of a place: they stand as far into a word as into the value, or at its front. */
static void print_found(const place *p)
{
    unsigned at;

    for (at = p->offset % 4; at + p->count <= MACHINE_BYTES; at += 4)
        if (same(machine + at, bytes_of(p), p->count)) {
            print(", but at ");
            print_at(at);
            return;
        }
    print(", and in no register, nor on the stack");
}

/* Only the first of a call: one value in another place moves those behind it. */
static void differs(const place *p, enum moment moment)
{
    if (now_differs)
        return;
    now_differs = 1;
    if (++differ > MOST_SHOWN)
        return;
    print_call();
    print(p->value == 0 ? "the result" : "argument ");
    if (p->value > 0)
        print_number(p->value);
    print(moments[moment]);
    print(", bytes from ");
    print_number(p->offset);
    print(" on: not ");
    print(p->is_behind ? "behind the address at " : "at ");
    print_at(p->at);
    if (moment == PASSED || moment == RETURNED)
        print_found(p);
    print("\n");
}

static void compare(const place *p, const uint8_t *bytes, enum moment moment)
{
    if (bytes == NULL || !same(bytes, bytes_of(p), p->count))
        differs(p, moment);
}

/* ---- the compiler's caller ---- */

/* An address that it passed is one of its frame or of `found`. Where it passed something else there, anything may stand in its place. */
static int is_ours(const uint8_t *address)
{
    extern uint8_t __bss_start[], _end[];

    return address >= __bss_start && address < _end - MOST_BYTES;
}

/* What a place means as the caller left the machine; NULL where there is no address. */
static uint8_t *as_passed(const place *p)
{
    uint8_t *address;

    if (!p->is_behind)
        return machine + p->at;
    memcpy(&address, machine + p->at, sizeof address);
    return is_ours(address) ? address + p->offset : NULL;
}

static void clear_registers(void)
{
    memset(machine + INTEGERS_AT, NOTHING, FLOATS_AT - INTEGERS_AT);
    memset(machine + FLOATS_AT, ABOVE_FLOAT, STACK_AT - FLOATS_AT);
}

/* A result by reference has one address for all its places. */
static void hand_back(void)
{
    const place *p = now->places, *end = p + now->of_result;

    if (p < end && p->is_behind) {
        for (; p < end; p++)
            if (as_passed(p) != NULL)
                memcpy(as_passed(p), bytes_of(p), p->count);
        return;
    }
    clear_registers();
    for (; p < end; p++)
        memcpy(machine + p->at, bytes_of(p), p->count);
}

void captured(void)
{
    const place *p;

    for (p = now->places + now->of_result; p < now->places + now->of_all; p++)
        compare(p, as_passed(p), PASSED);
    hand_back();
}

static void check_caller(void)
{
    const place *p;

    memset(found, NOTHING, sizeof found);
    now->caller();
    for (p = now->places; p < now->places + now->of_result; p++)
        compare(p, found + (bytes_of(p) - given), TAKEN_BACK);
}

/* ---- the compiler's function ---- */

/* The place in `copies` that is a value's own. */
static uint8_t *copy_of(const place *p)
{
    return copies + (bytes_of(p) - given);
}

static void place_bytes(const place *p)
{
    uint8_t *address = copy_of(p) - p->offset;

    if (p->is_behind)
        memcpy(machine + p->at, &address, sizeof address);
    if (p->value > 0)
        memcpy(p->is_behind ? copy_of(p) : machine + p->at, bytes_of(p), p->count);
}

static void check_function(void)
{
    const place *p, *end = now->places + now->of_all;

    memset(found, NOTHING, sizeof found);
    memset(copies, NOTHING, sizeof copies);
    memset(machine, NOTHING, sizeof machine);
    clear_registers();
    for (p = now->places; p < end; p++)
        place_bytes(p);
    enter(now->function);
    for (p = now->places; p < end; p++)
        if (p->value > 0)
            compare(p, found + (bytes_of(p) - given), ENTERED);
        else
            compare(p, p->is_behind ? copy_of(p) : machine + p->at, RETURNED);
}

/* ---- all of it ---- */

/* A function that looks for its parameters elsewhere may take anything for an address. */
static void faulted(void)
{
    print_call();
    print("what is no address is taken for one\n");
    system_call(1, 0, 0, 0, 93); /* exit */
}

static void catch_faults(void)
{
    const struct {
        void (*handler)(void);
        unsigned long flags, mask;
    } action = {faulted, 0, 0};

    system_call(11, (long)&action, 0, sizeof action.mask, 134); /* rt_sigaction, of SIGSEGV */
}

static void fill_given(void)
{
    unsigned i;

    for (i = 0; i < sizeof given; i++)
        given[i] = (uint8_t)(1 + (number + i) % MOST_IN_BYTE);
}

static void check_call(void)
{
    now = calls[number];
    now_differs = 0;
    fill_given();
    check_caller();
    if (!now_differs)
        check_function();
    values += now->values;
}

int check(const char *name)
{
    catch_faults();
    for (number = 0; number < call_count; number++)
        check_call();
    print(name);
    print(": ");
    print_number(call_count);
    print(" calls, ");
    print_number(values);
    print(" values, ");
    print_number(differ);
    print(" differ\n");
    return differ != 0;
}
