/*
 * Calls functions that the compiler made, on description 0, by what the library answers and nothing else: loads registers, copies stack
 * bytes, and looks whether the function found each value. The first is the call that broke (README.md).
 *
 * For each function of signatures.h a call is kept and lent: the mark where it ends in dots, its result, its parameters. A value goes to
 * the registers that it was given, which are the next ones, and what the answer says is on the stack goes to the bytes that it names. All
 * else, the other registers, the bytes between and the padding behind, holds something else. A few instructions then load the registers,
 * copy the bytes and enter the function, which hands over what it finds for each parameter. What it returns is looked for where the answer
 * for the result says: in registers, on the x87 stack, or behind the address that was passed.
 *
 * Some versions of clang look for an __int128 elsewhere (docs/COMPILERS.md). Which this one does is tried first; calls that meet it are
 * left out, and counted by its name. With gcc none is.
 *
 * check SETTING [BYTES]: prints how much was found, behind the compiler's name and the setting. What wasn't is said with its call and its
 * place in it, and the exit status is 1. With BYTES each value on the stack is moved on by so many, and must not be found.
 */
#include <stddef.h>
#include <stdio.h>
#include <stdlib.h>

#include "barkpaddle.h"
#include "check.h"
#include "compiled.h"
#include "departures.h"

/* How often each function is called, each time with other values, until something isn't found. */
#define ROUNDS 16

/* Integer and float registers of description 0. */
#define INTEGERS 6
#define FLOATS 8

/* ---- types ---- */

/* So many scalars of a kind and a size, one behind the other. */
typedef struct run {
    uint64_t kind, size, offset, count;
} run;

typedef struct type {
    const char *name;
    uint64_t size, align;
    int is_record;
    run runs[2];
} type;

#define SIZED(name) #name, sizeof(type_##name), _Alignof(type_##name)
#define SCALAR(name, kind) {SIZED(name), 0, {{kind, sizeof(type_##name), 0, 1}}}
#define ARRAY(name, kind, size, count) {SIZED(name), 1, {{kind, size, 0, count}}}
#define RECORD(name, ...) {SIZED(name), 1, {__VA_ARGS__}}

enum { INTEGER, SINGLE, DOUBLE, X87, QUAD };

static const type types[] = {
    SCALAR(c, INTEGER),
    SCALAR(w, INTEGER),
    SCALAR(i, INTEGER),
    SCALAR(l, INTEGER),
    SCALAR(p, INTEGER),
    SCALAR(q, INTEGER),
    SCALAR(f, SINGLE),
    SCALAR(d, DOUBLE),
    SCALAR(x, X87),
    SCALAR(h, QUAD),
    ARRAY(empty, INTEGER, 1, 0),
    ARRAY(b1, INTEGER, 1, 1),
    ARRAY(b2, INTEGER, 1, 2),
    ARRAY(b3, INTEGER, 1, 3),
    ARRAY(b5, INTEGER, 1, 5),
    ARRAY(b7, INTEGER, 1, 7),
    ARRAY(b8, INTEGER, 1, 8),
    ARRAY(b9, INTEGER, 1, 9),
    ARRAY(b15, INTEGER, 1, 15),
    ARRAY(b16, INTEGER, 1, 16),
    ARRAY(b17, INTEGER, 1, 17),
    ARRAY(b33, INTEGER, 1, 33),
    ARRAY(b40, INTEGER, 1, 40),
    ARRAY(w3, INTEGER, 2, 3),
    ARRAY(i3, INTEGER, 4, 3),
    ARRAY(l2, INTEGER, 8, 2),
    ARRAY(l3, INTEGER, 8, 3),
    ARRAY(l5, INTEGER, 8, 5),
    ARRAY(q1, INTEGER, 16, 1),
    ARRAY(f1, SINGLE, 4, 1),
    ARRAY(f2, SINGLE, 4, 2),
    ARRAY(f3, SINGLE, 4, 3),
    ARRAY(f4, SINGLE, 4, 4),
    ARRAY(f5, SINGLE, 4, 5),
    ARRAY(d1, DOUBLE, 8, 1),
    ARRAY(d2, DOUBLE, 8, 2),
    ARRAY(d3, DOUBLE, 8, 3),
    ARRAY(x1, X87, 16, 1),
    ARRAY(x2, X87, 16, 2),
    RECORD(li, {INTEGER, 8, 0, 1}, {INTEGER, 4, 8, 1}),
    RECORD(ld, {INTEGER, 8, 0, 1}, {DOUBLE, 8, 8, 1}),
    RECORD(dl, {DOUBLE, 8, 0, 1}, {INTEGER, 8, 8, 1}),
    RECORD(cd, {INTEGER, 1, 0, 1}, {DOUBLE, 8, 8, 1}),
    RECORD(fi, {SINGLE, 4, 0, 1}, {INTEGER, 4, 4, 1}),
    RECORD(fl, {SINGLE, 4, 0, 1}, {INTEGER, 8, 8, 1}),
    RECORD(if2, {INTEGER, 4, 0, 1}, {SINGLE, 4, 4, 2}),
    RECORD(df, {DOUBLE, 8, 0, 1}, {SINGLE, 4, 8, 1}),
    RECORD(lx, {INTEGER, 8, 0, 1}, {X87, 16, 16, 1})};

/* The type of the name at the front of a list, as "(l, l2)", and the list behind it; NULL at its end. */
static const type *next_type(const char **list)
{
    size_t length;
    size_t i;

    *list += strspn(*list, "(, ");
    length = strcspn(*list, ",)");
    if (length == 0)
        return NULL;
    for (i = 0; i < COUNT(types); i++)
        if (strlen(types[i].name) == length && strncmp(types[i].name, *list, length) == 0) {
            *list += length;
            return &types[i];
        }
    printf("FAILED there is no type %s\n", *list);
    exit(1);
}

/* Of a long double the last bytes are padding, and so are a record's between and behind its scalars. */
static uint64_t own_bytes(const run *r)
{
    return r->kind == X87 ? 10 : r->size;
}

/* ---- values ---- */

typedef struct value {
    const type *t;
    uint8_t bytes[MOST_BYTES];
} value;

/* Random numbers: splitmix64. */
static uint64_t random_word(void)
{
    static uint64_t state = 104;
    uint64_t z = state += UINT64_C(0x9E3779B97F4A7C15);

    z = (z ^ (z >> 30)) * UINT64_C(0xBF58476D1CE4E5B9);
    z = (z ^ (z >> 27)) * UINT64_C(0x94D049BB133111EB);
    return z ^ (z >> 31);
}

static void fill_randomly(void *bytes, uint64_t count)
{
    uint8_t *at = (uint8_t *)bytes;

    while (count-- > 0)
        *at++ = (uint8_t)random_word();
}

/* Any bits; but a long double is a normal number, whose first bit is written out. */
static value drawn_value(const type *t)
{
    value v = {t, {0}};
    const run *r;
    uint64_t i;

    fill_randomly(v.bytes, sizeof v.bytes);
    for (r = t->runs; r < t->runs + COUNT(t->runs); r++)
        for (i = 0; r->kind == X87 && i < r->count; i++) {
            v.bytes[r->offset + r->size * i + 7] |= 0x80;
            v.bytes[r->offset + r->size * i + 9] = 0x40;
        }
    return v;
}

/* Whether all that isn't padding is the same. */
static int same_value(const value *v, const uint8_t *bytes)
{
    const run *r;
    uint64_t i;

    for (r = v->t->runs; r < v->t->runs + COUNT(v->t->runs); r++)
        for (i = 0; i < r->count; i++) {
            uint64_t at = r->offset + r->size * i;

            if (memcmp(v->bytes + at, bytes + at, own_bytes(r)) != 0)
                return 0;
        }
    return 1;
}

/* ---- entering a function ---- */

/* What is loaded before a function is entered, and what is found behind it. */
typedef struct machine {
    uint64_t integer[INTEGERS]; /* rdi, rsi, rdx, rcx, r8, r9 */
    uint8_t float_[FLOATS][16];
    uint64_t rax; /* how many float registers are used, which functions that end in dots ask for */
    void (*function)(void);
    const uint8_t *stack;
    uint64_t stack_length;   /* a multiple of 16 */
    uint64_t has_st0;        /* whether it returns something there */
    uint64_t integer_out[2]; /* rax, rdx */
    uint8_t float_out[2][16];
    uint8_t st0[16];
} machine;

_Static_assert(offsetof(machine, float_) == 48 && offsetof(machine, rax) == 176, "registers to load are elsewhere");
_Static_assert(offsetof(machine, function) == 184 && offsetof(machine, stack) == 192, "what to enter is elsewhere");
_Static_assert(offsetof(machine, stack_length) == 200 && offsetof(machine, has_st0) == 208, "two lengths are elsewhere");
_Static_assert(offsetof(machine, integer_out) == 216 && offsetof(machine, float_out) == 232, "what is found is elsewhere");
_Static_assert(offsetof(machine, st0) == 264, "what is found is elsewhere");

void enter_function(machine *m);

__asm__(".text\n"
        ".globl enter_function\n"
        ".type enter_function, @function\n"
        "enter_function:\n"
        "    push %rbp\n"
        "    mov %rsp, %rbp\n"
        "    push %rbx\n"
        "    push %rbx\n"
        "    mov %rdi, %rbx\n"
        "    mov 200(%rbx), %rcx\n"
        "    sub %rcx, %rsp\n"
        "    mov %rsp, %rdi\n"
        "    mov 192(%rbx), %rsi\n"
        "    rep movsb\n"
        "    movups 48(%rbx), %xmm0\n"
        "    movups 64(%rbx), %xmm1\n"
        "    movups 80(%rbx), %xmm2\n"
        "    movups 96(%rbx), %xmm3\n"
        "    movups 112(%rbx), %xmm4\n"
        "    movups 128(%rbx), %xmm5\n"
        "    movups 144(%rbx), %xmm6\n"
        "    movups 160(%rbx), %xmm7\n"
        "    mov (%rbx), %rdi\n"
        "    mov 8(%rbx), %rsi\n"
        "    mov 16(%rbx), %rdx\n"
        "    mov 24(%rbx), %rcx\n"
        "    mov 32(%rbx), %r8\n"
        "    mov 40(%rbx), %r9\n"
        "    mov 176(%rbx), %rax\n"
        "    call *184(%rbx)\n"
        "    mov %rax, 216(%rbx)\n"
        "    mov %rdx, 224(%rbx)\n"
        "    movups %xmm0, 232(%rbx)\n"
        "    movups %xmm1, 248(%rbx)\n"
        "    cmpq $0, 208(%rbx)\n"
        "    je 1f\n"
        "    fstpt 264(%rbx)\n"
        "1:  lea -16(%rbp), %rsp\n"
        "    pop %rbx\n"
        "    pop %rbx\n"
        "    pop %rbp\n"
        "    ret\n"
        ".size enter_function, . - enter_function\n");

/* ---- where a compiler parts from the others ---- */

/* How many functions aren't called for each. */
static unsigned long left_out[DEPARTURES];

/* Whether this compiler has such a value elsewhere than the answer says, from this call on. */
static enum departure departure_at(const type *t, const barkpaddle_call *c)
{
    if (strcmp(t->name, "q") != 0)
        return NONE;
    if (c->integer == 1)
        return departs[WIDE_IS_SPLIT] ? WIDE_IS_SPLIT : departs[WIDE_SPENDS] ? WIDE_SPENDS : NONE;
    return departs[WIDE_IS_UNALIGNED] && c->integer == 0 && c->stack % 16 != 0 ? WIDE_IS_UNALIGNED : NONE;
}

/* ---- the call that is made ---- */

#define MOST_VALUES 28
#define MOST_STACK_BYTES 1024

/* The values that are passed, and what the function found for each; the result, and where it goes in memory; the bytes of the stack, and
 * which of them are some value's. */
static struct {
    const signature *s;
    unsigned long passed, seen;
    value values[MOST_VALUES];
    uint8_t found[MOST_VALUES][MOST_BYTES];
    value result;
    barkpaddle_outcome result_outcome;
    uint64_t result_slots[BARKPADDLE_MOST_SLOT_WORDS];
    _Alignas(16) uint8_t result_room[MOST_BYTES];
    uint8_t stack[MOST_STACK_BYTES];
    uint8_t is_taken[MOST_STACK_BYTES];
    machine m;
} call;

uint8_t to_return[MOST_BYTES];

/* How far each value on the stack is moved, where it is not to be found. */
static uint64_t moved_by;

void see(const void *bytes, uint64_t size)
{
    if (call.seen < call.passed && size == call.values[call.seen].t->size)
        memcpy(call.found[call.seen], bytes, size);
    call.seen++;
}

/* ---- what was seen ---- */

static unsigned long calls, values, results;
static unsigned long of_type[COUNT(types)];
static unsigned long in_integers, in_floats, on_stack, holes, behind_dots, back_in_memory, back_in_st0;

/* Says so. The first forty are shown. */
static void fails(const char *where, const value *v, const char *what)
{
    const signature *s = call.s;

    failed++;
    if (failed > 40)
        return;
    printf("FAILED call %s, %s returning %s", s->name, s->parameters, s->result);
    if (s->dots != NULL)
        printf(", behind the dots %s", s->dots);
    printf(": %s", where);
    if (v >= call.values && v < call.values + MOST_VALUES)
        printf(" %d", (int)(v - call.values) + 1);
    printf(", %s: %s\n", v->t == NULL ? "v" : v->t->name, what);
}

/* ---- a value, by its answer ---- */

/* Bytes of a value that go to the stack, which takes so many for them. */
static void stack_up(const value *v, barkpaddle_outcome o, uint64_t from, uint64_t count)
{
    uint64_t i;

    if (o.stack_bytes < count || o.stack_at > MOST_STACK_BYTES || o.stack_bytes + moved_by > MOST_STACK_BYTES - o.stack_at) {
        fails("value", v, "its bytes have no room where the answer says");
        return;
    }
    for (i = 0; i < o.stack_bytes; i++)
        if (call.is_taken[o.stack_at + i]++)
            fails("value", v, "another stands where the answer says");
    memcpy(call.stack + o.stack_at + moved_by, v->bytes + from, count);
    on_stack++;
}

/* An integer narrower than an int is extended to one in its register (the description's NARROW_ARGS_TO_INT). */
static void load_integer(const value *v, uint64_t number, uint64_t from, uint64_t count)
{
    if (number >= INTEGERS || from + count > v->t->size) {
        fails("value", v, "there is no such register, or there are no such bytes");
        return;
    }
    memcpy(&call.m.integer[number], v->bytes + from, count);
    if (!v->t->is_record && v->t->size < sizeof(int)) {
        int extended = v->t->size == 1 ? (int8_t)v->bytes[0] : (int16_t)(v->bytes[0] | v->bytes[1] << 8);

        memcpy(&call.m.integer[number], &extended, sizeof extended);
    }
    in_integers++;
}

static void load_float(const value *v, uint64_t number, uint64_t from, uint64_t count)
{
    if (number >= FLOATS || from + count > v->t->size) {
        fails("value", v, "there is no such register, or there are no such bytes");
        return;
    }
    memcpy(call.m.float_[number], v->bytes + from, count);
    in_floats++;
}

static uint64_t slot_bytes(const uint64_t *slot)
{
    static const uint64_t sizes[] = {0, 4, 8, 10, 16};
    uint64_t kind = slot[BARKPADDLE_SLOT_KIND];

    return kind == BARKPADDLE_KIND_INTEGER ? slot[BARKPADDLE_SLOT_SIZE] : kind < COUNT(sizes) ? sizes[kind] : MOST_BYTES + 1;
}

/* A scalar: its words in the integer registers that it was given, or all of it in a float register; the rest on the stack. */
static void pass_scalar(const value *v, uint64_t integer, uint64_t float_, barkpaddle_outcome o)
{
    uint64_t size = v->t->size;
    uint64_t i;

    for (i = 0; i < o.integers_given && 8 * i < size; i++)
        load_integer(v, integer + i, 8 * i, size - 8 * i < 8 ? size - 8 * i : 8);
    if (o.floats_given > 0)
        load_float(v, float_, 0, size);
    else if (size > 8 * o.integers_given)
        stack_up(v, o, 8 * o.integers_given, size - 8 * o.integers_given);
}

/* Its slots: each in the next register of its bank, of which there are enough. */
static void pass_slots(const value *v, uint64_t integer, uint64_t float_, barkpaddle_outcome o, const uint64_t *slots)
{
    uint64_t last_integer = integer + o.integers_given, last_float = float_ + o.floats_given;
    uint64_t i;

    for (i = 0; i < o.slots; i++) {
        const uint64_t *slot = slots + BARKPADDLE_SLOT_WORDS * i;
        uint64_t from = slot[BARKPADDLE_SLOT_OFFSET];

        if (slot[BARKPADDLE_SLOT_KIND] == BARKPADDLE_KIND_INTEGER && integer < last_integer)
            load_integer(v, integer++, from, slot_bytes(slot));
        else if (slot[BARKPADDLE_SLOT_KIND] != BARKPADDLE_KIND_INTEGER && float_ < last_float)
            load_float(v, float_++, from, slot_bytes(slot));
        else
            fails("value", v, "a slot was given no register");
    }
}

static void pass(const value *v, barkpaddle_call before, barkpaddle_outcome o, const uint64_t *slots)
{
    uint64_t integer = INTEGERS - before.integer + o.integers_passed;
    uint64_t float_ = FLOATS - before.float_ + o.floats_passed;

    holes += o.stack_bytes > 0 && o.stack_at != before.stack;
    switch (o.way) {
    case BARKPADDLE_WAY_IGNORE:
        if (v->t->size != 0)
            fails("value", v, "it doesn't travel");
        break;
    case BARKPADDLE_WAY_DIRECT:
        pass_scalar(v, integer, float_, o);
        break;
    case BARKPADDLE_WAY_PIECES:
        pass_slots(v, integer, float_, o, slots);
        break;
    case BARKPADDLE_WAY_MEMORY:
        stack_up(v, o, 0, v->t->size);
        break;
    default:
        fails("value", v, "it travels in a way that description 0 has for no argument");
    }
}

/* ---- the operations ---- */

/* What the library is asked about: a type, or nothing where it is NULL. Its pieces go to `words`; answers how many words that are. */
static uint64_t describe(const type *t, barkpaddle_what *what, uint64_t *words)
{
    uint64_t length = 0;
    const run *r;
    uint64_t i;

    memset(what, 0, sizeof *what);
    if (t == NULL)
        return 0;
    what->form = t->is_record ? BARKPADDLE_FORM_AGGREGATE : BARKPADDLE_FORM_SCALAR;
    what->kind = t->runs[0].kind;
    what->size = t->size;
    what->align = t->align;
    for (r = t->runs; t->is_record && r < t->runs + COUNT(t->runs); r++)
        for (i = 0; i < r->count; i++) {
            words[length++] = r->kind;
            words[length++] = r->size;
            words[length++] = r->size;
            words[length++] = r->offset + r->size * i;
        }
    return length;
}

typedef barkpaddle_outcome (*operation)(barkpaddle_call *, barkpaddle_what, const uint64_t *, uint64_t, uint64_t *, uint64_t);

static barkpaddle_outcome ask(operation entry, barkpaddle_call *c, const value *v, uint64_t *slots)
{
    uint64_t words[MOST_BYTES * BARKPADDLE_PIECE_WORDS];
    barkpaddle_what what;
    uint64_t length = describe(v->t, &what, words);
    barkpaddle_outcome o = entry(c, what, words, length, slots, BARKPADDLE_MOST_SLOT_WORDS);

    if (o.refusal != BARKPADDLE_ACCEPTED)
        fails("value", v, "it is refused");
    return o;
}

/* The result: where it comes back, and the address that is passed for it, if any is. */
static void begin_result(barkpaddle_call *c)
{
    const char *name = call.s->result;
    barkpaddle_call before = *c;
    barkpaddle_outcome o;
    uint64_t i;

    call.result.t = NULL;
    if (strcmp(name, "v") != 0)
        call.result = drawn_value(next_type(&name));
    memcpy(to_return, call.result.bytes, sizeof to_return);
    call.result_outcome = o = ask(barkpaddle_bridge_returns, c, &call.result, call.result_slots);
    call.m.has_st0 = o.way == BARKPADDLE_WAY_DIRECT && call.result.t->runs[0].kind == X87;
    for (i = 0; i < o.slots; i++)
        call.m.has_st0 |= call.result_slots[BARKPADDLE_SLOT_WORDS * i + BARKPADDLE_SLOT_KIND] == BARKPADDLE_KIND_X87_EXTENDED;
    if (o.way != BARKPADDLE_WAY_REFERENCE)
        return;
    if (o.integers_given != 1)
        fails("the result", &call.result, "its address was given no register");
    else
        call.m.integer[INTEGERS - before.integer + o.integers_passed] = (uintptr_t)call.result_room;
}

/* Each parameter of a list. Answers where the compiler is known to put one elsewhere. */
static enum departure pass_all(operation entry, barkpaddle_call *c, const char *list)
{
    const type *t;

    while ((t = next_type(&list)) != NULL) {
        uint64_t slots[BARKPADDLE_MOST_SLOT_WORDS];
        value *v = &call.values[call.passed++];
        enum departure departure = departure_at(t, c);
        barkpaddle_call before = *c;

        if (departure != NONE)
            return departure;
        *v = drawn_value(t);
        pass(v, before, ask(entry, c, v, slots), slots);
        of_type[t - types]++;
    }
    return NONE;
}

static enum departure load(void)
{
    barkpaddle_call c = barkpaddle_fresh(BARKPADDLE_ABI_SYSV_AMD64).next;
    enum departure departure;

    if (call.s->dots != NULL)
        barkpaddle_bridge_variadic(&c);
    begin_result(&c);
    departure = pass_all(barkpaddle_bridge_argument, &c, call.s->parameters);
    if (departure == NONE && call.s->dots != NULL) {
        behind_dots++;
        departure = pass_all(barkpaddle_bridge_variadic_argument, &c, call.s->dots);
    }
    call.m.rax = FLOATS - c.float_;
    call.m.stack_length = (c.stack + moved_by + 15) / 16 * 16;
    if (call.m.stack_length > MOST_STACK_BYTES)
        call.m.stack_length = MOST_STACK_BYTES;
    return departure;
}

/* ---- what was found ---- */

static void check_values(void)
{
    unsigned long i;

    if (call.seen != call.passed)
        fails("the function", &call.result, "it saw another number of parameters");
    for (i = 0; i < call.passed; i++) {
        values++;
        if (!same_value(&call.values[i], call.found[i]))
            fails("value", &call.values[i], "it isn't where the answer says");
    }
}

/* The bytes that came back, by the answer for the result. */
static void collect_result(uint8_t bytes[MOST_BYTES])
{
    const barkpaddle_outcome *o = &call.result_outcome;
    const machine *m = &call.m;
    uint64_t integer = 0, float_ = 0;
    uint64_t i;

    if (o->way == BARKPADDLE_WAY_REFERENCE) {
        back_in_memory++;
        memcpy(bytes, call.result_room, MOST_BYTES);
        if (m->integer_out[0] != (uintptr_t)call.result_room)
            fails("the result", &call.result, "its address didn't come back");
    } else if (o->way == BARKPADDLE_WAY_DIRECT) {
        uint64_t kind = call.result.t->runs[0].kind;

        back_in_st0 += kind == X87;
        memcpy(bytes, kind == INTEGER ? (const uint8_t *)m->integer_out : kind == X87 ? m->st0 : m->float_out[0], 16);
    }
    for (i = 0; i < o->slots; i++) {
        const uint64_t *slot = call.result_slots + BARKPADDLE_SLOT_WORDS * i;
        uint64_t kind = slot[BARKPADDLE_SLOT_KIND], at = slot[BARKPADDLE_SLOT_OFFSET], count = slot_bytes(slot);

        back_in_st0 += kind == X87;
        if (at + count > call.result.t->size)
            fails("the result", &call.result, "a slot has bytes that it hasn't");
        else if (kind == X87)
            memcpy(bytes + at, m->st0, count);
        else if (kind == INTEGER && integer < COUNT(m->integer_out))
            memcpy(bytes + at, &m->integer_out[integer++], count);
        else if (kind != INTEGER && float_ < COUNT(m->float_out))
            memcpy(bytes + at, m->float_out[float_++], count);
        else
            fails("the result", &call.result, "a slot has no register to come back in");
    }
}

static void check_result(void)
{
    uint8_t bytes[MOST_BYTES] = {0};

    if (call.result.t == NULL)
        return;
    results++;
    collect_result(bytes);
    if (!same_value(&call.result, bytes))
        fails("the result", &call.result, "it isn't where the answer says");
}

/* ---- all of it ---- */

static enum departure make_call(const signature *s)
{
    enum departure departure;

    memset(&call, 0, sizeof call);
    call.s = s;
    fill_randomly(call.m.integer, sizeof call.m.integer);
    fill_randomly(call.m.float_, sizeof call.m.float_);
    fill_randomly(call.stack, sizeof call.stack);
    fill_randomly(call.found, sizeof call.found);
    call.m.function = s->function;
    call.m.stack = call.stack;
    departure = load();
    if (departure != NONE)
        return departure;
    enter_function(&call.m);
    check_values();
    check_result();
    return NONE;
}

static void make_calls(void)
{
    unsigned long i;
    int round;

    for (i = 0; i < signature_count; i++) {
        enum departure departure = NONE;
        unsigned long failed_before = failed;

        for (round = 0; round < ROUNDS && departure == NONE && failed == failed_before; round++)
            departure = make_call(&signatures[i]);
        left_out[departure]++;
        calls += departure == NONE;
    }
}

/* Every type was passed, and something was in each place; or this finds less than it says. */
static void check_counts(void)
{
    size_t i;

    for (i = 0; i < COUNT(types); i++)
        was_seen(types[i].name, of_type[i], ROUNDS);
    was_seen("a function", calls, 50);
    was_seen("an integer register", in_integers, 100 * ROUNDS);
    was_seen("a float register", in_floats, 100 * ROUNDS);
    was_seen("a value on the stack", on_stack, 100 * ROUNDS);
    was_seen("a hole on the stack", holes, 8 * ROUNDS);
    was_seen("values behind the dots", behind_dots, 6 * ROUNDS);
    was_seen("a result in memory", back_in_memory, 6 * ROUNDS);
    was_seen("a result on the x87 stack", back_in_st0, 3 * ROUNDS);
}

int main(int count, char **words)
{
    moved_by = count > 2 ? strtoull(words[2], NULL, 10) : 0;
    try_wide();
    make_calls();
    if (failed == 0)
        check_counts();
    print_compiler();
    printf(" %s: %lu functions, %lu values and %lu results, ", count > 1 ? words[1] : "", calls, values, results);
    if (failed != 0)
        printf("%lu things aren't where the answers say", failed);
    else
        printf("all where the answers say");
    print_departures("; left out:", "for", left_out);
    printf("\n");
    return failed != 0;
}
