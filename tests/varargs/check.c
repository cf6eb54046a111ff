/*
 * Reads variable argument lists through barkpaddle_read_scalar, beside the compiler's own va_arg.
 *
 * Each call of the generated files passes random scalars behind the dots. The function that is called reads them by va_arg, and each value
 * and what the va_list is behind it are noted here. Then the two areas that the va_list points to are lent to the library, which reads the
 * same list. After each scalar its bytes are compared with those that va_arg read and with those that were passed, and all three offsets
 * with the va_list's own. The argument area is lent to the last byte of the last scalar that stands in it; lent a byte less, that scalar
 * has to be refused. The offsets at the start are also held against what the library's entries for a call leave for the named parameters:
 * registers, and the next stack offset.
 *
 * Some versions of clang read another place by va_arg than their own callers fill (docs/COMPILERS.md). Which this one does is tried first;
 * what isn't compared because of it is counted and named. With gcc all is compared.
 *
 * check SETTING: prints how much was compared, behind the compiler's name and the setting. What differs is said with its call and its
 * scalar, and the exit status is 1.
 */
#include <stdio.h>

#include "barkpaddle.h"
#include "check.h"
#include "compiled.h"
#include "departures.h"

static uint64_t round_up(uint64_t number, uint64_t to)
{
    return (number + to - 1) / to * to;
}

/* ---- types ---- */

/* A scalar behind the dots, whose alignment is its size. Of a long double the last bytes are padding, which needn't be passed. */
typedef struct type {
    char letter;
    const char *name;
    uint64_t kind, size, value_bytes;
} type;

static const type types[] = {
    {'b', "a record of a char", BARKPADDLE_KIND_INTEGER, 1, 1},
    {'w', "a record of a short", BARKPADDLE_KIND_INTEGER, 2, 2},
    {'i', "an int", BARKPADDLE_KIND_INTEGER, 4, 4},
    {'l', "a long", BARKPADDLE_KIND_INTEGER, 8, 8},
    {'p', "a pointer", BARKPADDLE_KIND_INTEGER, 8, 8},
    {'q', "an __int128", BARKPADDLE_KIND_INTEGER, 16, 16},
    {'s', "a record of a float", BARKPADDLE_KIND_SINGLE, 4, 4},
    {'d', "a double", BARKPADDLE_KIND_DOUBLE, 8, 8},
    {'x', "a long double", BARKPADDLE_KIND_X87_EXTENDED, 16, 10},
    {'f', "a __float128", BARKPADDLE_KIND_QUAD, 16, 16}};

static const type *type_of(char letter)
{
    size_t i = 0;

    while (types[i].letter != letter)
        i++;
    return &types[i];
}

/* Records among the named parameters and results: their pieces, each of four words. */
typedef struct record {
    char letter;
    uint64_t size, align, words_length;
    uint64_t words[5 * BARKPADDLE_PIECE_WORDS];
} record;

static const record records[] = {
    {'r', sizeof(pair), 8, 8, {0, 8, 8, 0, 2, 8, 8, 8}},
    {'m', sizeof(triple), 8, 12, {0, 8, 8, 0, 0, 8, 8, 8, 0, 8, 8, 16}},
    {'g', sizeof(large), 8, 20, {0, 8, 8, 0, 0, 8, 8, 8, 0, 8, 8, 16, 0, 8, 8, 24, 0, 8, 8, 32}}};

/* NULL where the letter is no record's. */
static const record *record_of(char letter)
{
    size_t i;

    for (i = 0; i < COUNT(records); i++)
        if (records[i].letter == letter)
            return &records[i];
    return NULL;
}

const pair a_pair = {1, 2.0};
const triple a_triple = {{1, 2, 3}};

/* ---- offsets ---- */

/* The library's three offsets, each counted from its area's start. */
typedef struct offsets {
    uint64_t gp, fp, overflow;
} offsets;

static offsets offsets_of(const sysv_list *list, const uint8_t *area)
{
    offsets at = {list->gp_offset, list->fp_offset, (uint64_t)(list->overflow_arg_area - area)};

    return at;
}

/* ---- where a compiler parts from itself ---- */

/* How often a list was moved by hand for each. */
static unsigned long departed[DEPARTURES];

static int meets(enum departure departure, char letter, const sysv_list *list)
{
    switch (departure) {
    case WIDE_IS_SPLIT:
    case WIDE_SPENDS:
        return letter == 'q' && list->gp_offset == 40;
    case WIDE_IS_UNALIGNED:
        return letter == 'q' && list->gp_offset == 48 && (uintptr_t)list->overflow_arg_area % 16 != 0;
    case QUAD_IS_MISSED:
        return letter == 'f' && list->fp_offset < 176;
    default:
        return 0;
    }
}

static enum departure departure_at(char letter, const sysv_list *list)
{
    int i;

    for (i = NONE + 1; i < DEPARTURES; i++)
        if (departs[i] && meets((enum departure)i, letter, list))
            return (enum departure)i;
    return NONE;
}

/* Moves the list to where this compiler's caller goes on. */
static void move_by_hand(enum departure departure, va_list list)
{
    sysv_list moved = copy_of(list);

    if (departure == WIDE_IS_SPLIT)
        moved.overflow_arg_area += 8;
    if (departure == WIDE_IS_SPLIT || departure == WIDE_SPENDS)
        moved.gp_offset = 48;
    if (departure == WIDE_IS_UNALIGNED)
        moved.overflow_arg_area += 16;
    if (departure == QUAD_IS_MISSED)
        moved.fp_offset += 16;
    memcpy(list, &moved, sizeof moved);
}

#ifdef __clang__
static __attribute__((noinline)) void try_quad(int named, ...)
{
    va_list list;
    sysv_list before, after;
    __float128 quad;

    va_start(list, named);
    before = copy_of(list);
    quad = va_arg(list, __float128);
    after = copy_of(list);
    va_end(list);
    (void)quad;
    departs[QUAD_IS_MISSED] = after.fp_offset == before.fp_offset;
}
#else
static void try_quad(int named, ...)
{
}
#endif

static void find_departures(void)
{
    try_wide();
    try_quad(0, (__float128)1);
}

/* ---- the call that is looked at ---- */

/* A scalar as va_arg read it: its bytes, the list behind it, and the list that the next one is read from. */
typedef struct reading {
    enum departure departure;
    value v;
    sysv_list behind, next;
} reading;

static struct {
    int number;
    const char *named, *scalars;
    const uint8_t *area;
    sysv_list start;
    int noted;
    reading readings[MOST_SCALARS];
} call;

value passed[MOST_SCALARS];

static const sysv_list *list_before(int scalar)
{
    return scalar == 0 ? &call.start : &call.readings[scalar - 1].next;
}

static int is_in_argument_area(int scalar)
{
    return call.readings[scalar].behind.overflow_arg_area != list_before(scalar)->overflow_arg_area;
}

/* Whether the caller put it elsewhere than any reader looks. */
static int is_elsewhere(const reading *r)
{
    return r->departure == WIDE_IS_SPLIT || r->departure == WIDE_IS_UNALIGNED;
}

/* The last scalar that the library reads from the argument area, or -1. */
static int last_in_argument_area(void)
{
    int scalar = call.noted - 1;

    while (scalar >= 0 && (is_elsewhere(&call.readings[scalar]) || !is_in_argument_area(scalar)))
        scalar--;
    return scalar;
}

/* Where a scalar of the argument area ends: va_arg went on by its size rounded up to 8. */
static uint64_t end_of(int scalar)
{
    uint64_t size = type_of(call.scalars[scalar])->size;

    return offsets_of(&call.readings[scalar].behind, call.area).overflow - round_up(size, 8) + size;
}

/* ---- what was seen ---- */

static unsigned long calls, scalars;
static unsigned long in_save_area[COUNT(types)], in_argument_area[COUNT(types)];
static unsigned long from_gp_offset[7], from_fp_offset[9];
static unsigned long wide_with_one_place, holes, named_on_stack, hidden_pointers, short_areas;

static void count_scalar(int scalar)
{
    const type *t = type_of(call.scalars[scalar]);
    const reading *r = &call.readings[scalar];
    const sysv_list *before = list_before(scalar);

    scalars++;
    departed[r->departure]++;
    if (is_in_argument_area(scalar))
        in_argument_area[t - types]++;
    else
        in_save_area[t - types]++;
    holes += is_in_argument_area(scalar) && !is_elsewhere(r) && end_of(scalar) != offsets_of(before, call.area).overflow + t->size;
    wide_with_one_place += t->letter == 'q' && before->gp_offset == 40;
}

static void count_call(void)
{
    int scalar;

    calls++;
    from_gp_offset[call.start.gp_offset / 8]++;
    from_fp_offset[call.start.fp_offset / 16 - 3]++;
    hidden_pointers += call.named[0] == 'g';
    named_on_stack += call.start.overflow_arg_area != call.area;
    for (scalar = 0; scalar < call.noted; scalar++)
        count_scalar(scalar);
}

/* ---- what differs ---- */

/* Says so, and answers no. The first forty are shown. */
static int differs(int scalar, const char *what)
{
    failed++;
    if (failed > 40)
        return 0;
    printf("FAILED call %d, named %s behind a result %c, ", call.number, call.named + 1, call.named[0]);
    if (scalar >= 0)
        printf("scalar %d of %s, %s: ", scalar, call.scalars, type_of(call.scalars[scalar])->name);
    printf("%s\n", what);
    return 0;
}

static int same_number(int scalar, const char *what, uint64_t expected, uint64_t got)
{
    char text[120];

    if (expected == got)
        return 1;
    snprintf(text, sizeof text, "%s is %llu, not %llu", what, (unsigned long long)got, (unsigned long long)expected);
    return differs(scalar, text);
}

static int same_offsets(int scalar, const char *whose, offsets expected, offsets got)
{
    char what[80];
    int same;

    snprintf(what, sizeof what, "the integer offset beside %s", whose);
    same = same_number(scalar, what, expected.gp, got.gp);
    snprintf(what, sizeof what, "the float offset beside %s", whose);
    same &= same_number(scalar, what, expected.fp, got.fp);
    snprintf(what, sizeof what, "the overflow offset beside %s", whose);
    return same & same_number(scalar, what, expected.overflow, got.overflow);
}

static int same_bytes(int scalar, const char *what, const uint8_t *expected, const uint8_t *got)
{
    char text[160];
    uint64_t count = type_of(call.scalars[scalar])->value_bytes;
    int at;
    uint64_t i;

    if (memcmp(expected, got, count) == 0)
        return 1;
    at = snprintf(text, sizeof text, "its bytes are ");
    for (i = 0; i < count; i++)
        at += snprintf(text + at, sizeof text - at, "%02x", got[i]);
    at += snprintf(text + at, sizeof text - at, ", and %s ", what);
    for (i = 0; i < count; i++)
        at += snprintf(text + at, sizeof text - at, "%02x", expected[i]);
    return differs(scalar, text);
}

/* ---- behind the named parameters ---- */

static barkpaddle_answer after_result(barkpaddle_call c, char letter)
{
    const record *r = record_of(letter);
    uint64_t slots[BARKPADDLE_MOST_SLOT_WORDS];
    const type *t;

    if (letter == 'v')
        return barkpaddle_return_void(c.abi, c.integer, c.float_, c.integers_only, c.stack, slots, COUNT(slots));
    if (r != NULL)
        return barkpaddle_return_aggregate(
            c.abi, c.integer, c.float_, c.integers_only, c.stack, r->size, r->align, 0, 0, r->words, r->words_length, slots, COUNT(slots));
    t = type_of(letter);
    return barkpaddle_return_scalar(
        c.abi, c.integer, c.float_, c.integers_only, c.stack, t->kind, t->size, t->size, slots, COUNT(slots));
}

static barkpaddle_answer after_parameter(barkpaddle_call c, char letter)
{
    const record *r = record_of(letter);
    uint64_t slots[BARKPADDLE_MOST_SLOT_WORDS];
    const type *t;

    if (r != NULL)
        return barkpaddle_argument_aggregate(
            c.abi, c.integer, c.float_, c.integers_only, c.stack, r->size, r->align, 0, 0, r->words, r->words_length, slots, COUNT(slots));
    t = type_of(letter);
    return barkpaddle_argument_scalar(
        c.abi, c.integer, c.float_, c.integers_only, c.stack, t->kind, t->size, t->size, slots, COUNT(slots));
}

/* The offsets that the library's own entries leave for the dots. */
static offsets behind_named(void)
{
    barkpaddle_call c = barkpaddle_fresh(BARKPADDLE_ABI_SYSV_AMD64).next;
    barkpaddle_answer a = barkpaddle_variadic(c.abi, c.integer, c.float_, c.integers_only, c.stack);
    const char *letter = call.named;
    offsets at;

    for (a = after_result(a.next, *letter++); *letter != 0; letter++) {
        same_number(-1, "the refusal of the parameter before", BARKPADDLE_ACCEPTED, a.outcome.refusal);
        a = after_parameter(a.next, *letter);
    }
    same_number(-1, "the refusal of the last parameter", BARKPADDLE_ACCEPTED, a.outcome.refusal);
    at.gp = 8 * (6 - a.next.integer);
    at.fp = 48 + 16 * (8 - a.next.float_);
    at.overflow = a.next.stack;
    return at;
}

/* ---- through the library ---- */

static int check_accepted(int scalar, barkpaddle_part part, offsets next)
{
    const reading *r = &call.readings[scalar];
    const type *t = type_of(call.scalars[scalar]);
    const uint8_t *bytes = BARKPADDLE_PART_BYTES(part, call.start.reg_save_area, call.area);
    uint64_t area = is_in_argument_area(scalar) ? BARKPADDLE_AREA_OVERFLOW : BARKPADDLE_AREA_SAVE;
    int same = same_number(scalar, "the refusal", BARKPADDLE_ACCEPTED, part.refusal);

    same = same && same_number(scalar, "the area", area, part.area);
    same = same && same_number(scalar, "the length", t->size, part.length);
    same = same && same_bytes(scalar, "the value that was passed is", passed[scalar].bytes, bytes);
    if (r->departure != QUAD_IS_MISSED)
        same = same && same_bytes(scalar, "va_arg reads", r->v.bytes, bytes);
    return same && same_offsets(scalar, "the va_list's", offsets_of(&r->behind, call.area), next);
}

static int check_refused(int scalar, barkpaddle_part part, offsets handed, offsets next)
{
    int same = same_number(scalar, "the refusal, a byte short", BARKPADDLE_BAD_AREA, part.refusal);

    same &= same_number(scalar, "the refused part's area", BARKPADDLE_AREA_NOWHERE, part.area);
    same &= same_number(scalar, "the refused part's start", 0, part.start);
    same &= same_number(scalar, "the refused part's length", 0, part.length);
    return same & same_offsets(scalar, "those of a refused read", handed, next);
}

/*
 * Reads the list from an argument area of so many bytes. It ends behind the scalar `cut`, if that isn't -1: the area is too short for it.
 * Where something differs the rest isn't read, since it would differ, too. Answers whether all was as it should be.
 */
static int read_through_library(uint64_t length, int cut)
{
    offsets at = offsets_of(&call.start, call.area);
    int scalar;

    for (scalar = 0; scalar < call.noted; scalar++) {
        const reading *r = &call.readings[scalar];
        const type *t = type_of(call.scalars[scalar]);
        barkpaddle_part part;
        offsets next;

        if (is_elsewhere(r)) {
            at = offsets_of(&r->next, call.area);
            continue;
        }
        part = barkpaddle_read_scalar(
            call.start.reg_save_area, BARKPADDLE_AREA_SAVE_BYTES, length == 0 ? NULL : call.area, length, at.gp, at.fp, at.overflow, t->kind,
            t->size, t->size);
        next.gp = part.gp_offset;
        next.fp = part.fp_offset;
        next.overflow = part.overflow_offset;
        if (scalar == cut)
            return check_refused(scalar, part, at, next);
        if (!check_accepted(scalar, part, next))
            return 0;
        at = r->departure == WIDE_SPENDS ? offsets_of(&r->next, call.area) : next;
    }
    return 1;
}

/* Both areas as they are, to be held against what they are later. */
static void copy_areas(uint8_t *copy, uint64_t length)
{
    memcpy(copy, call.start.reg_save_area, BARKPADDLE_AREA_SAVE_BYTES);
    memcpy(copy + BARKPADDLE_AREA_SAVE_BYTES, call.area, length);
}

void check_call(void)
{
    /* fourteen named parameters of 24 bytes at most, and the scalars */
    static uint8_t before[176 + 14 * 24 + 8 + MOST_SCALARS * 16], after[sizeof before];
    int last = last_in_argument_area();
    uint64_t length = last < 0 ? 0 : end_of(last);

    count_call();
    same_number(-1, "how far the argument area is from a multiple of 16", 0, (uintptr_t)call.area % 16);
    same_offsets(-1, "what the library leaves for the dots", behind_named(), offsets_of(&call.start, call.area));
    copy_areas(before, length);
    if (read_through_library(length, -1) && last >= 0)
        short_areas += read_through_library(length - 1, last);
    copy_areas(after, length);
    if (memcmp(before, after, BARKPADDLE_AREA_SAVE_BYTES + length) != 0)
        differs(-1, "an area was written to");
}

/* ---- what the generated files call ---- */

/* Random numbers: splitmix64. */
static uint64_t random_word(uint64_t *state)
{
    uint64_t z = *state += UINT64_C(0x9E3779B97F4A7C15);

    z = (z ^ (z >> 30)) * UINT64_C(0xBF58476D1CE4E5B9);
    z = (z ^ (z >> 27)) * UINT64_C(0x94D049BB133111EB);
    return z ^ (z >> 31);
}

/* Any bits; but a long double is a normal number, whose first bit is written out. */
static void draw_value(value *v, char letter, uint64_t *state)
{
    uint64_t words[2] = {random_word(state), random_word(state)};

    if (letter == 'x') {
        words[0] |= UINT64_C(1) << 63;
        words[1] = (words[1] & 0x3FFF) + 0x2000;
    }
    memcpy(v->bytes, words, sizeof words);
}

void begin(int number, const char *named, const char *scalars_passed)
{
    uint64_t state = (uint64_t)number << 32;
    int i;

    call.number = number;
    call.named = named;
    call.scalars = scalars_passed;
    for (i = 0; scalars_passed[i] != 0; i++)
        draw_value(&passed[i], scalars_passed[i], &state);
}

const char *start_reading(va_list list, const uint8_t *area)
{
    call.start = copy_of(list);
    call.area = area;
    call.noted = 0;
    return call.scalars;
}

int va_arg_reads(char letter, va_list list)
{
    sysv_list now = copy_of(list);
    enum departure departure = departure_at(letter, &now);

    call.readings[call.noted].departure = departure;
    if (departure == NONE || departure == WIDE_SPENDS)
        return 1;
    move_by_hand(departure, list);
    return 0;
}

void note(const value *v, va_list list)
{
    reading *r = &call.readings[call.noted++];

    r->v = *v;
    r->behind = copy_of(list);
    if (r->departure == WIDE_SPENDS)
        move_by_hand(WIDE_SPENDS, list);
    r->next = copy_of(list);
}

/* ---- all of it ---- */

/* All calls were made, from every start; every type was often in each area that it can be in, and so was every odd place; or this compares
 * less than it says. */
static void check_counts(void)
{
    size_t i;

    was_seen("a call", calls, call_count);
    for (i = 0; i < COUNT(from_gp_offset); i++)
        was_seen("an integer offset at the start", from_gp_offset[i], 20);
    for (i = 0; i < COUNT(from_fp_offset); i++)
        was_seen("a float offset at the start", from_fp_offset[i], 20);
    for (i = 0; i < COUNT(types); i++) {
        was_seen(types[i].name, in_argument_area[i], 500);
        if (types[i].kind != BARKPADDLE_KIND_X87_EXTENDED)
            was_seen(types[i].name, in_save_area[i], 200);
    }
    was_seen("an __int128 with one register left", wide_with_one_place, 100);
    was_seen("a hole in the argument area", holes, 500);
    was_seen("a named parameter on the stack", named_on_stack, 500);
    was_seen("a hidden pointer", hidden_pointers, 500);
    was_seen("an area that is a byte short", short_areas, 1000);
}

int main(int count, char **words)
{
    find_departures();
    all_calls();
    check_counts();
    print_compiler();
    printf(" %s: %lu calls, %lu scalars, ", count > 1 ? words[1] : "", calls, scalars);
    if (failed != 0)
        printf("%lu things differ", failed);
    else
        printf("all as va_arg reads them");
    print_departures("; its va_list moved by hand:", "times", departed);
    printf("\n");
    return failed != 0;
}
