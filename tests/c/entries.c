/*
 * Calls every entry of barkpaddle.h but barkpaddle_flatten, which types.c beside this file calls, on good and on refused input, and checks
 * each number of each answer and every word of each lent buffer.
 *
 * What is expected comes from the table of twelve calls (docs/REFERENCE.md, 9.8) and the other rules there, and from the lines that the
 * original prints for the same calls (oracle/tests/all/calls.rs), never from the library. lines.c beside this file holds it against the
 * original's own answers. An operation over a lent call is expected to do what the one by value does: each operation here is performed
 * both ways, and a random history, too.
 *
 * Prints how many checks passed. What fails is said with its place, and the exit status is 1.
 */
#include <stddef.h>
#include <stdio.h>
#include <string.h>

#include "barkpaddle.h"
#include "checks.h"

/* C99 and C++98 have no static assertion: an array of -1 items isn't compiled. */
#define HOLDS(name, fact) typedef char name[(fact) ? 1 : -1]

/* Every struct of the header has so many words, and each of its fields is the word of this number. */
#define WORDS(type, count) HOLDS(type##_words, sizeof(barkpaddle_##type) == 8 * (count))
#define WORD(type, field, at) \
    HOLDS(type##_##field, offsetof(barkpaddle_##type, field) == 8 * (at) && sizeof(((barkpaddle_##type *)0)->field) == 8)

WORDS(call, 5);
WORD(call, abi, 0);
WORD(call, integer, 1);
WORD(call, float_, 2);
WORD(call, integers_only, 3);
WORD(call, stack, 4);

WORDS(outcome, 9);
WORD(outcome, refusal, 0);
WORD(outcome, way, 1);
WORD(outcome, integers_passed, 2);
WORD(outcome, integers_given, 3);
WORD(outcome, floats_passed, 4);
WORD(outcome, floats_given, 5);
WORD(outcome, slots, 6);
WORD(outcome, stack_at, 7);
WORD(outcome, stack_bytes, 8);

/* an answer's two fields are structs themselves */
WORDS(answer, 14);
HOLDS(answer_next, offsetof(barkpaddle_answer, next) == 0);
HOLDS(answer_next_is_a_call, sizeof(((barkpaddle_answer *)0)->next) == sizeof(barkpaddle_call));
HOLDS(answer_outcome, offsetof(barkpaddle_answer, outcome) == 8 * 5);
HOLDS(answer_outcome_is_one, sizeof(((barkpaddle_answer *)0)->outcome) == sizeof(barkpaddle_outcome));

WORDS(told, 2);
WORD(told, refusal, 0);
WORD(told, value, 1);

WORDS(record_shape, 5);
WORD(record_shape, refusal, 0);
WORD(record_shape, size, 1);
WORD(record_shape, align, 2);
WORD(record_shape, complex_, 3);
WORD(record_shape, floating, 4);

WORDS(flat, 4);
WORD(flat, refusal, 0);
WORD(flat, pieces, 1);
WORD(flat, size, 2);
WORD(flat, align, 3);

WORDS(description_fields, 22);
WORD(description_fields, refusal, 0);
WORD(description_fields, integer, 1);
WORD(description_fields, float_, 2);
WORD(description_fields, shared, 3);
WORD(description_fields, integer_width, 4);
WORD(description_fields, float_width, 5);
WORD(description_fields, in_memory, 6);
WORD(description_fields, wide_integer_is_all_or_nothing, 7);
WORD(description_fields, wide_integer_starts_even, 8);
WORD(description_fields, wide_integer_drains, 9);
WORD(description_fields, wide_is_by_reference, 10);
WORD(description_fields, wide_integer_returns_in, 11);
WORD(description_fields, wide_integer_in_memory, 12);
WORD(description_fields, decimal_in_integers, 13);
WORD(description_fields, quad_returns_by_reference, 14);
WORD(description_fields, return_pointer, 15);
WORD(description_fields, variadic, 16);
WORD(description_fields, stack_args, 17);
WORD(description_fields, narrow, 18);
WORD(description_fields, bit_ints, 19);
WORD(description_fields, cleanup, 20);
WORD(description_fields, float_falls_to_integers, 21);

WORDS(rule, 5);
WORD(rule, refusal, 0);
WORD(rule, test, 1);
WORD(rule, number, 2);
WORD(rule, travel, 3);
WORD(rule, short_, 4);

WORDS(what, 6);
WORD(what, form, 0);
WORD(what, kind, 1);
WORD(what, size, 2);
WORD(what, align, 3);
WORD(what, complex_, 4);
WORD(what, floating, 5);

WORDS(part, 7);
WORD(part, refusal, 0);
WORD(part, area, 1);
WORD(part, start, 2);
WORD(part, length, 3);
WORD(part, gp_offset, 4);
WORD(part, fp_offset, 5);
WORD(part, overflow_offset, 6);

/* ---- calls and outcomes ---- */

/* A call as an entry takes it. */
#define HANDED(c) (c).abi, (c).integer, (c).float_, (c).integers_only, (c).stack

/* It has nothing on the stack. */
static barkpaddle_call call_of(uint64_t abi, uint64_t integer, uint64_t float_, uint64_t integers_only)
{
    barkpaddle_call c;

    c.abi = abi;
    c.integer = integer;
    c.float_ = float_;
    c.integers_only = integers_only;
    c.stack = 0;
    return c;
}

/* The same call with this stack offset. */
static barkpaddle_call further_on(barkpaddle_call c, uint64_t stack)
{
    c.stack = stack;
    return c;
}

static void check_call(const char *place, barkpaddle_call expected, barkpaddle_call got)
{
    check_number(place, "abi", expected.abi, got.abi);
    check_number(place, "integer", expected.integer, got.integer);
    check_number(place, "float_", expected.float_, got.float_);
    check_number(place, "integers_only", expected.integers_only, got.integers_only);
    check_number(place, "stack", expected.stack, got.stack);
}

/* `spent` is integers passed over and given, floats passed over and given. Nothing is on the stack. */
static barkpaddle_outcome outcome_of(uint64_t refusal, uint64_t way, const uint64_t spent[4], uint64_t slots)
{
    barkpaddle_outcome outcome;

    outcome.refusal = refusal;
    outcome.way = way;
    outcome.integers_passed = spent[0];
    outcome.integers_given = spent[1];
    outcome.floats_passed = spent[2];
    outcome.floats_given = spent[3];
    outcome.slots = slots;
    outcome.stack_at = 0;
    outcome.stack_bytes = 0;
    return outcome;
}

static void check_outcome(const char *place, barkpaddle_outcome expected, barkpaddle_outcome got)
{
    check_number(place, "refusal", expected.refusal, got.refusal);
    check_number(place, "way", expected.way, got.way);
    check_number(place, "integers_passed", expected.integers_passed, got.integers_passed);
    check_number(place, "integers_given", expected.integers_given, got.integers_given);
    check_number(place, "floats_passed", expected.floats_passed, got.floats_passed);
    check_number(place, "floats_given", expected.floats_given, got.floats_given);
    check_number(place, "slots", expected.slots, got.slots);
    check_number(place, "stack_at", expected.stack_at, got.stack_at);
    check_number(place, "stack_bytes", expected.stack_bytes, got.stack_bytes);
}

/* ---- lent buffers ---- */

#define ROOM 40

static uint64_t lent[ROOM];

static void fill(void)
{
    uint64_t i;

    for (i = 0; i < ROOM; i++)
        lent[i] = untouched(i);
}

/* The front of the buffer holds these words, and all behind them is as it was. */
static void check_lent(const char *place, const uint64_t *words, uint64_t count)
{
    uint64_t i;

    for (i = 0; i < count; i++)
        check_number(place, "a word at the buffer's front", words[i], lent[i]);
    for (i = count; i < ROOM; i++)
        check_number(place, "a word behind the result", untouched(i), lent[i]);
}

static uint8_t lent_bytes[ROOM + 40];

static void fill_bytes(void)
{
    memset(lent_bytes, 0xA5, sizeof lent_bytes);
}

static void check_bytes(const char *place, const char *text)
{
    size_t i;
    size_t count = strlen(text);

    for (i = 0; i < count; i++)
        check_number(place, "a byte of the text", (uint8_t)text[i], lent_bytes[i]);
    for (i = count; i < sizeof lent_bytes; i++)
        check_number(place, "a byte behind the text", 0xA5, lent_bytes[i]);
}

/* ---- operations, as one function ---- */

enum operation { RETURN, ARGUMENT, VARIADIC_ARGUMENT };
enum what { VOID, SCALAR, AGGREGATE };

typedef struct value {
    enum what what;
    uint64_t kind, size, align, complex_, floating;
    const uint64_t *words;
    uint64_t words_length;
} value;

static barkpaddle_answer by_value(enum operation operation, barkpaddle_call c, value v, uint64_t *slots, uint64_t length)
{
    switch (operation) {
    case RETURN:
        if (v.what == VOID)
            return barkpaddle_return_void(HANDED(c), slots, length);
        if (v.what == SCALAR)
            return barkpaddle_return_scalar(HANDED(c), v.kind, v.size, v.align, slots, length);
        return barkpaddle_return_aggregate(
            HANDED(c), v.size, v.align, v.complex_, v.floating, v.words, v.words_length, slots, length);
    case ARGUMENT:
        if (v.what == VOID)
            return barkpaddle_argument_void(HANDED(c), slots, length);
        if (v.what == SCALAR)
            return barkpaddle_argument_scalar(HANDED(c), v.kind, v.size, v.align, slots, length);
        return barkpaddle_argument_aggregate(
            HANDED(c), v.size, v.align, v.complex_, v.floating, v.words, v.words_length, slots, length);
    default:
        if (v.what == VOID)
            return barkpaddle_variadic_argument_void(HANDED(c), slots, length);
        if (v.what == SCALAR)
            return barkpaddle_variadic_argument_scalar(HANDED(c), v.kind, v.size, v.align, slots, length);
        return barkpaddle_variadic_argument_aggregate(
            HANDED(c), v.size, v.align, v.complex_, v.floating, v.words, v.words_length, slots, length);
    }
}

/* ---- the same over a lent call ---- */

/* A value as a lent call's operations take it. A field that its form doesn't read holds a number that would be refused, or a yes. */
static barkpaddle_what what_of(value v)
{
    static const uint64_t forms[] = {BARKPADDLE_FORM_VOID, BARKPADDLE_FORM_SCALAR, BARKPADDLE_FORM_AGGREGATE};
    barkpaddle_what what;

    what.form = forms[v.what];
    what.kind = v.what == SCALAR ? v.kind : 5;
    what.size = v.what == VOID ? UINT64_MAX : v.size;
    what.align = v.what == VOID ? UINT64_MAX : v.align;
    what.complex_ = v.what == AGGREGATE ? v.complex_ : 1;
    what.floating = v.what == AGGREGATE ? v.floating : UINT64_MAX;
    return what;
}

static barkpaddle_outcome by_lending(
    enum operation operation, barkpaddle_call *kept, barkpaddle_what what, const uint64_t *words, uint64_t words_length, uint64_t *slots,
    uint64_t length)
{
    switch (operation) {
    case RETURN:
        return barkpaddle_bridge_returns(kept, what, words, words_length, slots, length);
    case ARGUMENT:
        return barkpaddle_bridge_argument(kept, what, words, words_length, slots, length);
    default:
        return barkpaddle_bridge_variadic_argument(kept, what, words, words_length, slots, length);
    }
}

/* The outcome and the call that is stored are the answer's, and a refusal leaves the call's bytes as they were. */
static void check_stored(
    const char *place, barkpaddle_answer a, barkpaddle_outcome outcome, const barkpaddle_call *before, const barkpaddle_call *kept)
{
    check_outcome(place, a.outcome, outcome);
    check_call(place, a.next, *kept);
    if (a.outcome.refusal != BARKPADDLE_ACCEPTED)
        check_number(place, "a difference in a refused call", 0, memcmp(before, kept, sizeof *kept) != 0);
}

/* What an operation has on the stack begins behind what those before it have there, and the next call goes on behind it. */
static void check_offsets(const char *place, uint64_t before, barkpaddle_answer a)
{
    uint64_t at = a.outcome.stack_bytes == 0 ? before : a.outcome.stack_at;

    check_number(place, "a place of no bytes", 0, a.outcome.stack_bytes == 0 && a.outcome.stack_at != 0);
    check_number(place, "a place before the offset", 0, at < before);
    check_number(place, "the offset behind it", at + a.outcome.stack_bytes, a.next.stack);
}

/* The lent call's own buffer, with the same words in it as the other. */
static uint64_t lent_again[ROOM];

/* An operation by value on the call that `kept` is, and on `kept` itself. The answer is the value's; `slots` is NULL or `lent`. */
static barkpaddle_answer both_ways(
    const char *place, enum operation operation, barkpaddle_call *kept, value v, uint64_t *slots, uint64_t length)
{
    /* words that are for no aggregate, so that nobody looks at them: no whole pieces, and of no kind */
    static const uint64_t no_pieces[] = {UINT64_MAX, UINT64_MAX, UINT64_MAX};
    const uint64_t *words = v.what == AGGREGATE ? v.words : no_pieces;
    uint64_t words_length = v.what == AGGREGATE ? v.words_length : COUNT(no_pieces);
    barkpaddle_call before = *kept;
    barkpaddle_answer a;
    barkpaddle_outcome outcome;

    memcpy(lent_again, lent, sizeof lent);
    a = by_value(operation, before, v, slots, length);
    outcome = by_lending(operation, kept, what_of(v), words, words_length, slots == NULL ? NULL : lent_again, length);
    check_stored(place, a, outcome, &before, kept);
    check_number(place, "the mark that is handed on", before.integers_only, a.next.integers_only);
    check_offsets(place, before.stack, a);
    check_number(place, "a difference in the lent call's buffer", 0, memcmp(lent, lent_again, sizeof lent) != 0);
    return a;
}

static barkpaddle_answer perform(enum operation operation, barkpaddle_call c, value v, uint64_t *slots, uint64_t length)
{
    return both_ways("lent", operation, &c, v, slots, length);
}

static value scalar(uint64_t kind, uint64_t size, uint64_t align)
{
    value v = {SCALAR, 0, 0, 0, 0, 0, NULL, 0};

    v.kind = kind;
    v.size = size;
    v.align = align;
    return v;
}

static value aggregate(uint64_t size, uint64_t align, const uint64_t *words, uint64_t words_length)
{
    value v = {AGGREGATE, 0, 0, 0, 0, 0, NULL, 0};

    v.size = size;
    v.align = align;
    v.words = words;
    v.words_length = words_length;
    return v;
}

static const value nothing = {VOID, 0, 0, 0, 0, 0, NULL, 0};

/* ---- accepted operations ---- */

/* Checks all fourteen numbers of an answer that has nothing for the stack. */
static void check_answer(
    const char *place, barkpaddle_answer a, uint64_t refusal, uint64_t way, barkpaddle_call next, const uint64_t spent[4], uint64_t slots)
{
    check_call(place, next, a.next);
    check_outcome(place, outcome_of(refusal, way, spent, slots), a.outcome);
}

static const uint64_t no_spending[4] = {0, 0, 0, 0};

/* A refused operation: the call comes back, all else is 0, and the buffer is as it was. */
static void check_refused(const char *place, enum operation operation, barkpaddle_call c, value v, uint64_t length, uint64_t refusal)
{
    barkpaddle_answer a;

    fill();
    a = perform(operation, c, v, length == 0 ? NULL : lent, length);
    check_answer(place, a, refusal, 0, c, no_spending, 0);
    check_lent(place, NULL, 0);
}

/* The numbers of an accepted operation: integers and floats left, integers passed over and given, floats passed over and given, all as in a
 * sheet's line; then where on the stack the value stands, how many bytes it has there, and the next offset. An operation from offset 0 on
 * that puts nothing there has 0 in the last three. */
#define NUMBERS 9

/*
 * An accepted operation: its way, its numbers and its slots. In every buffer that has room the answer is the same and the words behind it
 * stay; in every smaller one it is NO_ROOM.
 */
static void check_line(
    const char *place, enum operation operation, barkpaddle_call c, value v, uint64_t way, const uint64_t numbers[NUMBERS],
    const uint64_t *slots, uint64_t slots_count)
{
    uint64_t length;
    barkpaddle_call next = c;
    barkpaddle_outcome outcome = outcome_of(BARKPADDLE_ACCEPTED, way, numbers + 2, slots_count);

    next.integer = numbers[0];
    next.float_ = numbers[1];
    outcome.stack_at = numbers[6];
    outcome.stack_bytes = numbers[7];
    next.stack = numbers[8];
    for (length = 0; length <= ROOM; length++) {
        barkpaddle_answer a;

        if (length / BARKPADDLE_SLOT_WORDS < slots_count) {
            check_refused(place, operation, c, v, length, BARKPADDLE_NO_ROOM);
            continue;
        }
        fill();
        a = perform(operation, c, v, length == 0 ? NULL : lent, length);
        check_call(place, next, a.next);
        check_outcome(place, outcome, a.outcome);
        check_lent(place, slots, slots_count * BARKPADDLE_SLOT_WORDS);
    }
}

/* Pieces of the records below. */
static const uint64_t int8_double[] = {0, 8, 8, 0, 2, 8, 8, 8};
static const uint64_t two_int8[] = {0, 8, 8, 0, 0, 8, 8, 8};
static const uint64_t one_x87[] = {3, 16, 16, 0};
static const uint64_t singles[] = {1, 4, 4, 0, 1, 4, 4, 4, 1, 4, 4, 8, 1, 4, 4, 12, 1, 4, 4, 16};
static const uint64_t doubles[] = {2, 8, 8, 0, 2, 8, 8, 8, 2, 8, 8, 16};
static const uint64_t single_int4[] = {1, 4, 4, 0, 0, 4, 4, 4};
static const uint64_t int4_single[] = {0, 4, 4, 0, 1, 4, 4, 4};

#define LINE(place, operation, c, v, way, numbers, slots) \
    check_line(place, operation, c, v, way, numbers, slots, COUNT(slots) / BARKPADDLE_SLOT_WORDS)
#define BARE(place, operation, c, v, way, numbers) check_line(place, operation, c, v, way, numbers, NULL, 0)

/* The table of twelve calls (REFERENCE 9.8). The aggregates of calls 10 and 12 have other pieces than there. */
static void twelve(void)
{
    static const uint64_t n1[NUMBERS] = {5, 7, 0, 1, 0, 1}, s1[] = {0, 0, 8, 2, 8, 0};
    static const uint64_t n2[NUMBERS] = {1, 8, 0, 0, 0, 0, 0, 16, 16};
    static const uint64_t n4[NUMBERS] = {6, 8, 0, 0, 0, 0, 0, 16, 16}, n4b[NUMBERS] = {6, 8, 0, 0, 0, 0}, s4[] = {3, 0, 0};
    static const uint64_t n5[NUMBERS] = {6, 6, 0, 0, 0, 2}, s5[] = {2, 0, 0, 1, 8, 0};
    static const uint64_t n6[NUMBERS] = {4, 8, 1, 2, 0, 0}, n6b[NUMBERS] = {5, 8, 0, 2, 0, 0};
    static const uint64_t n7[NUMBERS] = {7, 8, 0, 1, 0, 0};
    static const uint64_t n8[NUMBERS] = {8, 0, 0, 0, 2, 0, 0, 24, 24};
    static const uint64_t n9[NUMBERS] = {3, 0, 0, 1, 0, 0};
    static const uint64_t n10[NUMBERS] = {0, 0, 0, 0, 0, 0, 0, 8, 8}, s10[] = {0, 0, 8};
    static const uint64_t n11[NUMBERS] = {1, 0, 0, 1, 0, 0}, s11[] = {0, 0, 8};
    static const uint64_t n12[NUMBERS] = {1, 0, 0, 0, 0, 0, 0, 8, 8}, n12b[NUMBERS] = {0, 0, 1, 0, 0, 0, 0, 8, 8};

    LINE("call 1", ARGUMENT, call_of(0, 6, 8, 0), aggregate(16, 8, int8_double, 8), BARKPADDLE_WAY_PIECES, n1, s1);
    BARE("call 2", ARGUMENT, call_of(0, 1, 8, 0), aggregate(16, 8, two_int8, 8), BARKPADDLE_WAY_MEMORY, n2);
    BARE("call 3", ARGUMENT, call_of(0, 1, 8, 0), scalar(0, 16, 16), BARKPADDLE_WAY_DIRECT, n2);
    BARE("call 4, argument", ARGUMENT, call_of(0, 6, 8, 0), aggregate(16, 16, one_x87, 4), BARKPADDLE_WAY_MEMORY, n4);
    LINE("call 4, return", RETURN, call_of(0, 6, 8, 0), aggregate(16, 16, one_x87, 4), BARKPADDLE_WAY_PIECES, n4b, s4);
    LINE("call 5", ARGUMENT, call_of(0, 6, 8, 0), aggregate(12, 4, singles, 12), BARKPADDLE_WAY_PIECES, n5, s5);
    BARE("call 6, row 1", ARGUMENT, call_of(1, 7, 8, 0), scalar(0, 16, 16), BARKPADDLE_WAY_DIRECT, n6);
    BARE("call 6, row 2", ARGUMENT, call_of(2, 7, 8, 0), scalar(0, 16, 16), BARKPADDLE_WAY_DIRECT, n6b);
    BARE("call 7", ARGUMENT, call_of(1, 8, 8, 0), aggregate(20, 4, singles, 20), BARKPADDLE_WAY_REFERENCE, n7);
    BARE("call 8", ARGUMENT, call_of(1, 8, 2, 0), aggregate(24, 8, doubles, 12), BARKPADDLE_WAY_MEMORY, n8);
    BARE("call 9", ARGUMENT, call_of(4, 4, 0, 0), aggregate(0, 1, NULL, 0), BARKPADDLE_WAY_REFERENCE, n9);
    LINE("call 10", ARGUMENT, call_of(4, 0, 0, 0), aggregate(8, 8, NULL, 0), BARKPADDLE_WAY_PIECES, n10, s10);
    LINE("call 11", ARGUMENT, call_of(5, 2, 0, 0), aggregate(8, 4, single_int4, 8), BARKPADDLE_WAY_PIECES, n11, s11);
    BARE("call 12, scalar", ARGUMENT, call_of(9, 1, 0, 0), scalar(0, 8, 8), BARKPADDLE_WAY_DIRECT, n12);
    BARE("call 12, aggregate", ARGUMENT, call_of(9, 1, 0, 0), aggregate(8, 4, int4_single, 8), BARKPADDLE_WAY_MEMORY, n12b);
}

/* Cases beside the table, by the lines that the original prints for them. */
static void beside_the_twelve(void)
{
    static const uint64_t seven_passed[NUMBERS] = {0, 8, 7, 0, 0, 0, 0, 56, 56}, seven_given[NUMBERS] = {0, 8, 0, 7, 0, 0};
    static const uint64_t fastcall_passed[NUMBERS] = {0, 0, 2, 0, 0, 0, 0, 8, 8};
    static const uint64_t marked[NUMBERS] = {7, 8, 0, 1, 0, 0}, one_int[] = {0, 0, 8};
    static const uint64_t float_given[NUMBERS] = {8, 7, 0, 0, 0, 1};
    static const uint64_t all_given[NUMBERS] = {0, 8, 0, 8, 0, 0};
    static const uint64_t eight_ints[] = {0, 0, 8, 0, 8, 8, 0, 16, 8, 0, 24, 8, 0, 32, 8, 0, 40, 8, 0, 48, 8, 0, 56, 8};
    static const uint64_t pointer[NUMBERS] = {5, 8, 0, 1, 0, 0}, no_pointer[NUMBERS] = {8, 8, 0, 0, 0, 0};
    static const uint64_t wide_return[NUMBERS] = {4, 0, 0, 0, 0, 0}, quad_slot[] = {4, 0, 0}, quad_pointer[NUMBERS] = {3, 0, 0, 1, 0, 0};
    static const uint64_t nothing_spent[NUMBERS] = {5, 8, 0, 0, 0, 0}, two_words[NUMBERS] = {5, 8, 0, 0, 0, 0, 0, 16, 16};
    static const uint64_t address_there[NUMBERS] = {5, 8, 0, 0, 0, 0, 0, 8, 8};
    static const uint64_t fresh_0[NUMBERS] = {6, 8, 0, 0, 0, 0};
    static const uint64_t complex_there[NUMBERS] = {2, 0, 0, 0, 0, 0, 0, 8, 8};
    static const uint64_t complex_back[NUMBERS] = {2, 0, 0, 0, 0, 0}, complex_slots[] = {0, 0, 4, 0, 4, 4};
    uint64_t mark;
    value v;

    BARE("seven words evenly", ARGUMENT, call_of(1, 7, 8, 0), scalar(0, 56, 16), BARKPADDLE_WAY_DIRECT, seven_passed);
    BARE("seven words", ARGUMENT, call_of(2, 7, 8, 0), scalar(0, 56, 16), BARKPADDLE_WAY_DIRECT, seven_given);
    BARE("fastcall, wide", ARGUMENT, call_of(22, 2, 0, 0), scalar(0, 8, 8), BARKPADDLE_WAY_DIRECT, fastcall_passed);
    BARE("fastcall, record", ARGUMENT, call_of(22, 2, 0, 0), aggregate(8, 4, NULL, 0), BARKPADDLE_WAY_MEMORY, fastcall_passed);

    /* any number but 0 is the mark; it comes back as it was */
    for (mark = 1; mark != 0; mark <<= 1) {
        LINE("a marked call", ARGUMENT, call_of(3, 8, 8, mark), scalar(2, 8, 8), BARKPADDLE_WAY_PIECES, marked, one_int);
        LINE("a marked call, after the dots", VARIADIC_ARGUMENT, call_of(3, 8, 8, mark), scalar(2, 8, 8), BARKPADDLE_WAY_PIECES, marked, one_int);
        BARE("a marked call's return", RETURN, call_of(3, 8, 8, mark), scalar(2, 8, 8), BARKPADDLE_WAY_DIRECT, no_pointer);
    }
    LINE("eight slots", ARGUMENT, call_of(3, 8, 8, 1), scalar(4, 64, 16), BARKPADDLE_WAY_PIECES, all_given, eight_ints);
    BARE("a float without size", ARGUMENT, call_of(3, 8, 8, 1), scalar(1, 0, 0), BARKPADDLE_WAY_PIECES, marked);
    BARE("after the dots, no mark", VARIADIC_ARGUMENT, call_of(3, 8, 8, 0), scalar(2, 8, 8), BARKPADDLE_WAY_DIRECT, float_given);

    BARE("a large return", RETURN, call_of(0, 6, 8, 0), aggregate(100, 8, NULL, 0), BARKPADDLE_WAY_REFERENCE, pointer);
    BARE("a dedicated pointer", RETURN, call_of(1, 8, 8, 0), aggregate(100, 8, NULL, 0), BARKPADDLE_WAY_REFERENCE, no_pointer);
    LINE("a wide integer's return", RETURN, call_of(4, 4, 0, 0), scalar(0, 16, 16), BARKPADDLE_WAY_PIECES, wide_return, quad_slot);
    BARE("a Quad's return", RETURN, call_of(4, 4, 0, 0), scalar(4, 16, 16), BARKPADDLE_WAY_REFERENCE, quad_pointer);
    BARE("a scalar's return", RETURN, call_of(0, 6, 8, 0), scalar(0, 8, 8), BARKPADDLE_WAY_DIRECT, fresh_0);

    BARE("row 2, scalar after the dots", VARIADIC_ARGUMENT, call_of(2, 5, 8, 0), scalar(0, 16, 16), BARKPADDLE_WAY_DIRECT, two_words);
    BARE("row 2, a record there", VARIADIC_ARGUMENT, call_of(2, 5, 8, 0), aggregate(16, 8, NULL, 0), BARKPADDLE_WAY_MEMORY, two_words);
    BARE("row 2, a large one", VARIADIC_ARGUMENT, call_of(2, 5, 8, 0), aggregate(17, 8, NULL, 0), BARKPADDLE_WAY_REFERENCE, address_there);
    BARE("row 2, void after the dots", VARIADIC_ARGUMENT, call_of(2, 5, 8, 0), nothing, BARKPADDLE_WAY_IGNORE, nothing_spent);
    LINE("row 5 after the dots", VARIADIC_ARGUMENT, call_of(5, 8, 8, 0), scalar(2, 8, 8), BARKPADDLE_WAY_PIECES, marked, one_int);

    BARE("void argument", ARGUMENT, call_of(0, 6, 8, 0), nothing, BARKPADDLE_WAY_IGNORE, fresh_0);
    BARE("void return", RETURN, call_of(0, 6, 8, 0), nothing, BARKPADDLE_WAY_IGNORE, fresh_0);
    BARE("an empty record", ARGUMENT, call_of(0, 6, 8, 0), aggregate(0, 1, NULL, 0), BARKPADDLE_WAY_IGNORE, fresh_0);

    /* the complex and the floating mark: any number but 0 sets them (row 22's FloatingMode, row 9's ComplexFloat return) */
    for (mark = 1; mark != 0; mark <<= 1) {
        v = aggregate(8, 4, singles, 8);
        v.complex_ = mark;
        BARE("a complex on fastcall", ARGUMENT, call_of(22, 2, 0, 0), v, BARKPADDLE_WAY_MEMORY, complex_there);
        LINE("a complex back", RETURN, call_of(22, 2, 0, 0), v, BARKPADDLE_WAY_PIECES, complex_back, complex_slots);
        v = aggregate(8, 4, NULL, 0);
        v.floating = mark;
        BARE("a floating mode on fastcall", ARGUMENT, call_of(22, 2, 0, 0), v, BARKPADDLE_WAY_MEMORY, complex_there);
    }
}

/* ---- what carries nothing ---- */

/* A size, its words on 32-bit x86, and the slots that it comes back in where small records do. */
static const struct sized {
    uint64_t size, words, slots_count, slots[6];
} sized[] = {
    {1, 1, 1, {0, 0, 1}}, {3, 1, 0, {0}}, {4, 1, 1, {0, 0, 4}}, {5, 2, 0, {0}}, {8, 2, 2, {0, 0, 4, 0, 4, 4}}, {9, 3, 0, {0}},
    {16777216, 4194304, 0, {0}}};

/* fastcall's record of a size as an argument: in memory, and so many of the registers left as it has words are passed over, none given. */
static void fastcall_argument(enum operation operation, barkpaddle_call c, const struct sized *record)
{
    uint64_t passed_over = record->words < c.integer ? record->words : c.integer;
    uint64_t bytes = 4 * record->words;
    const uint64_t passes[NUMBERS] = {c.integer - passed_over, 0, passed_over, 0, 0, 0, 0, bytes, bytes};
    const uint64_t spends_nothing[NUMBERS] = {c.integer, 0, 0, 0, 0, 0, 0, bytes, bytes};
    value v = aggregate(record->size, 4, NULL, 0);

    BARE("fastcall, a record", operation, c, v, BARKPADDLE_WAY_MEMORY, passes);
    v.complex_ = 1;
    BARE("fastcall, a complex record", operation, c, v, BARKPADDLE_WAY_MEMORY, spends_nothing);
    v.floating = 1;
    BARE("fastcall, complex and floating", operation, c, v, BARKPADDLE_WAY_MEMORY, spends_nothing);
    v.complex_ = 0;
    BARE("fastcall, a floating record", operation, c, v, BARKPADDLE_WAY_MEMORY, spends_nothing);
}

/* The same record as a result: nothing is passed over. On row 22 every record comes back through an address, on the others the large ones. */
static void fastcall_return(barkpaddle_call c, const struct sized *record)
{
    uint64_t given = c.integer == 0 ? 0 : 1;
    uint64_t bytes = given ? 0 : 4;
    const uint64_t address[NUMBERS] = {c.integer - given, 0, 0, given, 0, 0, 0, bytes, bytes};
    const uint64_t spends_nothing[NUMBERS] = {c.integer, 0, 0, 0, 0, 0};
    value v = aggregate(record->size, 4, NULL, 0);

    if (c.abi == 22 || record->slots_count == 0)
        BARE("fastcall, a record back", RETURN, c, v, BARKPADDLE_WAY_REFERENCE, address);
    else
        check_line("fastcall, a small record back", RETURN, c, v, BARKPADDLE_WAY_PIECES, spends_nothing, record->slots, record->slots_count);
}

static void fastcall_refusals(enum operation operation, uint64_t row)
{
    static const uint64_t kind_5[] = {5, 4, 4, 0};

    check_refused("fastcall, a kind", operation, call_of(row, 2, 0, 0), aggregate(4, 4, kind_5, 4), ROOM, BARKPADDLE_BAD_KIND);
    check_refused("fastcall, a size", operation, call_of(row, 2, 0, 0), aggregate(16777217, 4, NULL, 0), ROOM, BARKPADDLE_BAD_SIZE);
    check_refused("fastcall, three left", operation, call_of(row, 3, 0, 0), aggregate(4, 4, NULL, 0), ROOM, BARKPADDLE_BAD_CALL);
    check_refused("fastcall, a mark", operation, call_of(row, 2, 0, 1), aggregate(4, 4, NULL, 0), ROOM, BARKPADDLE_BAD_CALL);
}

/* Registers that a record in memory is counted against carry nothing (REFERENCE 9.1, 9.3): the rows of fastcall, and those beside them. */
static void carries_nothing(void)
{
    static const uint64_t fastcall_rows[] = {22, 23, 27, 29}, rows_beside[] = {24, 25, 26, 28};
    static const enum operation operations[] = {RETURN, ARGUMENT, VARIADIC_ARGUMENT};
    size_t row, operation, i;
    uint64_t left;

    for (row = 0; row < COUNT(fastcall_rows); row++) {
        for (operation = 0; operation < COUNT(operations); operation++)
            fastcall_refusals(operations[operation], fastcall_rows[row]);
        for (left = 0; left <= 2; left++) {
            barkpaddle_call c = call_of(fastcall_rows[row], left, 0, 0);
            const uint64_t as_it_was[NUMBERS] = {left, 0, 0, 0, 0, 0};

            for (operation = 0; operation < COUNT(operations); operation++)
                BARE("fastcall, an empty record", operations[operation], c, aggregate(0, 1, NULL, 0), BARKPADDLE_WAY_IGNORE, as_it_was);
            for (i = 0; i < COUNT(sized); i++) {
                fastcall_argument(ARGUMENT, c, &sized[i]);
                fastcall_argument(VARIADIC_ARGUMENT, c, &sized[i]);
                fastcall_return(c, &sized[i]);
            }
        }
    }
    for (row = 0; row < COUNT(rows_beside); row++)
        for (i = 0; i < COUNT(sized); i++) {
            uint64_t bytes = 4 * sized[i].words;
            const uint64_t no_registers[NUMBERS] = {0, 0, 0, 0, 0, 0, 0, bytes, bytes};

            BARE(
                "no registers", ARGUMENT, call_of(rows_beside[row], 0, 0, 0), aggregate(sized[i].size, 4, NULL, 0), BARKPADDLE_WAY_MEMORY,
                no_registers);
        }
}

/* ---- RISC-V by its own book, rows 30 to 32 ---- */

/* the float registers and the float width of a row */
static const uint64_t riscv_floats[] = {0, 8, 8};
static const uint64_t riscv_widths[] = {0, 4, 8};

static barkpaddle_call riscv_call(uint64_t row, uint64_t integer)
{
    return call_of(row, integer, riscv_floats[row - 30], 0);
}

/* Two words are split between the last register and the stack; with none left they are in memory, and so is one word. */
static void riscv_split(uint64_t row)
{
    static const uint64_t two[] = {0, 0, 8, 0, 8, 8}, nine[] = {0, 0, 8, 0, 8, 1}, one[] = {0, 0, 8};
    uint64_t f = riscv_floats[row - 30];
    const uint64_t fits[NUMBERS] = {0, f, 0, 2, 0, 0, 0, 0, 0}, half[NUMBERS] = {0, f, 0, 1, 0, 0, 0, 8, 8};
    const uint64_t none[NUMBERS] = {0, f, 0, 0, 0, 0, 0, 16, 16}, word[NUMBERS] = {0, f, 0, 1, 0, 0, 0, 0, 0};
    const uint64_t no_word[NUMBERS] = {0, f, 0, 0, 0, 0, 0, 8, 8};
    static const enum operation arguments[] = {ARGUMENT, VARIADIC_ARGUMENT};
    size_t i;

    for (i = 0; i < COUNT(arguments); i++) {
        LINE("two words fit", arguments[i], riscv_call(row, 2), aggregate(16, 8, two_int8, 8), BARKPADDLE_WAY_PIECES, fits, two);
        LINE("two words, split", arguments[i], riscv_call(row, 1), aggregate(16, 8, two_int8, 8), BARKPADDLE_WAY_PIECES, half, two);
        LINE("nine bytes, split", arguments[i], riscv_call(row, 1), aggregate(9, 1, NULL, 0), BARKPADDLE_WAY_PIECES, half, nine);
        BARE("two words, none left", arguments[i], riscv_call(row, 0), aggregate(16, 8, two_int8, 8), BARKPADDLE_WAY_MEMORY, none);
        LINE("one word", arguments[i], riscv_call(row, 1), aggregate(8, 8, NULL, 0), BARKPADDLE_WAY_PIECES, word, one);
        BARE("one word, none left", arguments[i], riscv_call(row, 0), aggregate(8, 8, NULL, 0), BARKPADDLE_WAY_MEMORY, no_word);
        check_refused("room for one of two", arguments[i], riscv_call(row, 1), aggregate(16, 8, two_int8, 8), 1 * BARKPADDLE_SLOT_WORDS, BARKPADDLE_NO_ROOM);
    }
}

/* A float that a float register holds takes an integer register where no float register is left. A wider one always takes integer registers. */
static void riscv_floats_fall(uint64_t row)
{
    uint64_t width = riscv_widths[row - 30];
    uint64_t f = riscv_floats[row - 30];
    const uint64_t held[NUMBERS] = {8, f - 1, 0, 0, 0, 1}, fallen[NUMBERS] = {7, 0, 0, 1, 0, 0}, wider[NUMBERS] = {7, f, 0, 1, 0, 0};
    const uint64_t on_the_stack[NUMBERS] = {0, 0, 0, 0, 0, 0, 0, 8, 8}, quad[NUMBERS] = {6, f, 0, 2, 0, 0};
    static const uint64_t sizes[] = {4, 8};
    size_t i;

    for (i = 0; i < COUNT(sizes); i++) {
        value v = scalar(i + 1, sizes[i], sizes[i]);

        if (sizes[i] > width) {
            BARE("a wider float", ARGUMENT, riscv_call(row, 8), v, BARKPADDLE_WAY_DIRECT, wider);
            continue;
        }
        BARE("a float", ARGUMENT, riscv_call(row, 8), v, BARKPADDLE_WAY_DIRECT, held);
        BARE("a float that falls", ARGUMENT, call_of(row, 8, 0, 0), v, BARKPADDLE_WAY_DIRECT, fallen);
        BARE("a float that finds nothing", ARGUMENT, call_of(row, 0, 0, 0), v, BARKPADDLE_WAY_DIRECT, on_the_stack);
    }
    BARE("a Quad", ARGUMENT, riscv_call(row, 8), scalar(4, 16, 16), BARKPADDLE_WAY_DIRECT, quad);
}

/* After the dots a value that is aligned to two words, and no larger, starts at an even register, unless nothing travels. */
static void riscv_even_start(uint64_t row)
{
    static const uint64_t two[] = {0, 0, 8, 0, 8, 8}, one[] = {0, 0, 8};
    uint64_t f = riscv_floats[row - 30];
    const uint64_t even[NUMBERS] = {4, f, 1, 2, 0, 0}, odd[NUMBERS] = {5, f, 0, 2, 0, 0}, at_once[NUMBERS] = {4, f, 0, 2, 0, 0};
    const uint64_t last[NUMBERS] = {0, f, 1, 0, 0, 0, 0, 16, 16}, kept[NUMBERS] = {7, f, 0, 0, 0, 0}, half[NUMBERS] = {0, f, 0, 1, 0, 0, 0, 8, 8};
    const uint64_t address[NUMBERS] = {6, f, 0, 1, 0, 0}, word[NUMBERS] = {5, f, 1, 1, 0, 0};
    value aligned = aggregate(16, 16, two_int8, 8);

    BARE("16, aligned to 16", VARIADIC_ARGUMENT, riscv_call(row, 7), scalar(0, 16, 16), BARKPADDLE_WAY_DIRECT, even);
    BARE("the same, from an even one", VARIADIC_ARGUMENT, riscv_call(row, 6), scalar(0, 16, 16), BARKPADDLE_WAY_DIRECT, at_once);
    BARE("16, aligned to 32", VARIADIC_ARGUMENT, riscv_call(row, 7), scalar(0, 16, 32), BARKPADDLE_WAY_DIRECT, odd);
    BARE("16, aligned to 8", VARIADIC_ARGUMENT, riscv_call(row, 7), scalar(0, 16, 8), BARKPADDLE_WAY_DIRECT, odd);
    BARE("16, named", ARGUMENT, riscv_call(row, 7), scalar(0, 16, 16), BARKPADDLE_WAY_DIRECT, odd);
    LINE("a Quad there", VARIADIC_ARGUMENT, riscv_call(row, 7), scalar(4, 16, 16), BARKPADDLE_WAY_PIECES, even, two);
    LINE("a record there", VARIADIC_ARGUMENT, riscv_call(row, 7), aligned, BARKPADDLE_WAY_PIECES, even, two);
    LINE("a word aligned to 16", VARIADIC_ARGUMENT, riscv_call(row, 7), aggregate(8, 16, NULL, 0), BARKPADDLE_WAY_PIECES, word, one);
    LINE("a record, named", ARGUMENT, riscv_call(row, 7), aligned, BARKPADDLE_WAY_PIECES, odd, two);
    BARE("a record, one left", VARIADIC_ARGUMENT, riscv_call(row, 1), aligned, BARKPADDLE_WAY_MEMORY, last);
    BARE("16, one left", VARIADIC_ARGUMENT, riscv_call(row, 1), scalar(0, 16, 16), BARKPADDLE_WAY_DIRECT, last);
    LINE("a record, one left, aligned to 8", VARIADIC_ARGUMENT, riscv_call(row, 1), aggregate(16, 8, two_int8, 8), BARKPADDLE_WAY_PIECES, half, two);
    BARE("a large record", VARIADIC_ARGUMENT, riscv_call(row, 7), aggregate(32, 16, NULL, 0), BARKPADDLE_WAY_REFERENCE, address);
    BARE("nothing, aligned to 16", VARIADIC_ARGUMENT, riscv_call(row, 7), aggregate(0, 16, NULL, 0), BARKPADDLE_WAY_IGNORE, kept);
    BARE("void", VARIADIC_ARGUMENT, riscv_call(row, 7), nothing, BARKPADDLE_WAY_IGNORE, kept);
}

/* What isn't said of these rows is as on row 5. */
static void riscv_as_row_5(uint64_t row)
{
    static const uint64_t empty_single[] = {1, 0, 0, 0}, of_nothing[] = {1, 0, 0}, four_words[] = {0, 0, 8};
    uint64_t f = riscv_floats[row - 30];
    const uint64_t whole[NUMBERS] = {8, f, 0, 0, 0, 0}, wide[NUMBERS] = {4, f, 0, 4, 0, 0}, address[NUMBERS] = {7, f, 0, 1, 0, 0};
    const uint64_t word[NUMBERS] = {7, f, 0, 1, 0, 0}, pair[NUMBERS] = {7, f - 1, 0, 1, 0, 1};
    static const uint64_t found[] = {1, 0, 0, 0, 4, 4};

    BARE("an integer of 32", ARGUMENT, riscv_call(row, 8), scalar(0, 32, 32), BARKPADDLE_WAY_DIRECT, wide);
    BARE("a record of 17", ARGUMENT, riscv_call(row, 8), aggregate(17, 1, NULL, 0), BARKPADDLE_WAY_REFERENCE, address);
    BARE("a record of 17 back", RETURN, riscv_call(row, 8), aggregate(17, 1, NULL, 0), BARKPADDLE_WAY_REFERENCE, address);
    BARE("an empty record", ARGUMENT, riscv_call(row, 8), aggregate(0, 1, NULL, 0), BARKPADDLE_WAY_IGNORE, whole);
    LINE("a Single of no bytes back", RETURN, riscv_call(row, 8), aggregate(1, 1, empty_single, 4), BARKPADDLE_WAY_PIECES, whole, of_nothing);
    if (f == 0)
        LINE("a Single and an int", ARGUMENT, riscv_call(row, 8), aggregate(8, 4, single_int4, 8), BARKPADDLE_WAY_PIECES, word, four_words);
    else
        LINE("a Single and an int", ARGUMENT, riscv_call(row, 8), aggregate(8, 4, single_int4, 8), BARKPADDLE_WAY_PIECES, pair, found);
}

static void riscv_refusals(enum operation operation, uint64_t row)
{
    uint64_t f = riscv_floats[row - 30];

    check_refused("nine integers left", operation, call_of(row, 9, 0, 0), scalar(0, 8, 8), ROOM, BARKPADDLE_BAD_CALL);
    check_refused("a float too many left", operation, call_of(row, 8, f + 1, 0), scalar(0, 8, 8), ROOM, BARKPADDLE_BAD_CALL);
    check_refused("the mark", operation, call_of(row, 8, f, 1), scalar(0, 8, 8), ROOM, BARKPADDLE_BAD_CALL);
    check_refused("a kind", operation, call_of(row, 8, f, 0), scalar(5, 65, 4097), ROOM, BARKPADDLE_BAD_KIND);
    check_refused("a size", operation, call_of(row, 8, f, 0), scalar(0, 65, 4097), ROOM, BARKPADDLE_BAD_SIZE);
    check_refused("an alignment", operation, call_of(row, 8, f, 0), scalar(0, 64, 4097), ROOM, BARKPADDLE_BAD_ALIGN);
    check_refused("a shape's size", operation, call_of(row, 8, f, 0), aggregate(16777217, 16, NULL, 0), ROOM, BARKPADDLE_BAD_SIZE);
}

static void riscv_psabi(void)
{
    uint64_t row;

    for (row = BARKPADDLE_ABI_RISCV_PSABI_LP64; row <= BARKPADDLE_ABI_RISCV_PSABI_LP64D; row++) {
        riscv_split(row);
        riscv_floats_fall(row);
        riscv_even_start(row);
        riscv_as_row_5(row);
        riscv_refusals(RETURN, row);
        riscv_refusals(ARGUMENT, row);
        riscv_refusals(VARIADIC_ARGUMENT, row);
    }
}

/* ---- refused operations ---- */

/* numbers of no description: the next two, and what would be row 0 in a byte and in four, and the last */
static const uint64_t no_row[] = {BARKPADDLE_ABI_COUNT, BARKPADDLE_ABI_COUNT + 1, 256, UINT64_C(1) << 32, UINT64_MAX};

static uint64_t many_words[4 * 1024 + 8];

static void refusals_of(enum operation operation)
{
    static const uint64_t all_wrong[] = {5, 65, 4097, 16777217};
    static const uint64_t wrong[][4] = {
        {5, 65, 4097, 16777217}, {4, 65, 4097, 16777217}, {4, 64, 4097, 16777217}, {4, 64, 4097, 16777216}, {0, 8, 8, 0}};
    static const uint64_t refusals[] = {BARKPADDLE_BAD_KIND, BARKPADDLE_BAD_SIZE, BARKPADDLE_BAD_SIZE, BARKPADDLE_BAD_ALIGN};
    /* the largest size and the largest offset, each as large as the other lets it be: no piece may end past the largest shape */
    static const uint64_t largest[] = {4, 64, 4096, 16777152, 4, 0, 4096, 16777216};
    static const uint64_t kinds[] = {5, 6, 256, UINT64_C(1) << 32, UINT64_MAX};
    uint64_t two[8];
    uint64_t i;
    uint64_t n;
    barkpaddle_answer a;
    value bad = aggregate(16777217, 4097, all_wrong, 3);

    /* 1 before all else, for void too; the call comes back as it was */
    for (i = 0; i < COUNT(no_row); i++) {
        check_refused("BAD_ABI, void", operation, call_of(no_row[i], 9, 9, 7), nothing, ROOM, BARKPADDLE_BAD_ABI);
        check_refused("BAD_ABI, scalar", operation, call_of(no_row[i], 0, 0, 0), scalar(5, 65, 4097), ROOM, BARKPADDLE_BAD_ABI);
        check_refused("BAD_ABI, aggregate", operation, call_of(no_row[i], 0, 0, 0), bad, ROOM, BARKPADDLE_BAD_ABI);
    }

    /* 2: each bank's start passes, one above it doesn't; the mark belongs to row 3 alone */
    for (i = 0; i < BARKPADDLE_ABI_COUNT; i++) {
        barkpaddle_call start = barkpaddle_fresh(i).next;

        check_refused("BAD_CALL, integers", operation, call_of(i, start.integer + 1, start.float_, 0), bad, ROOM, BARKPADDLE_BAD_CALL);
        check_refused("BAD_CALL, floats", operation, call_of(i, start.integer, start.float_ + 1, 0), nothing, ROOM, BARKPADDLE_BAD_CALL);
        check_refused("BAD_CALL, most", operation, call_of(i, UINT64_MAX, 0, 0), scalar(9, 9, 9), ROOM, BARKPADDLE_BAD_CALL);
        if (i != BARKPADDLE_ABI_WINDOWS_ARM64) {
            check_refused("BAD_CALL, mark", operation, call_of(i, 0, 0, 1), nothing, ROOM, BARKPADDLE_BAD_CALL);
            check_refused("BAD_CALL, any mark", operation, call_of(i, 0, 0, UINT64_C(1) << 63), bad, ROOM, BARKPADDLE_BAD_CALL);
        }
        fill();
        a = perform(operation, call_of(i, start.integer, start.float_, 0), nothing, NULL, 0);
        check_answer("a whole call", a, 0, BARKPADDLE_WAY_IGNORE, call_of(i, start.integer, start.float_, 0), no_spending, 0);
    }

    /* 3: whole pieces, at most 1,024; before the shape's size */
    for (n = 0; n < COUNT(many_words); n++)
        many_words[n] = (n % 4 == 1 || n % 4 == 2) ? 8 : 0;
    for (n = 0; n <= 9; n++)
        if (n % 4 != 0)
            check_refused(
                "BAD_LIST, parts", operation, call_of(0, 6, 8, 0), aggregate(16777217, 8, many_words, n), ROOM, BARKPADDLE_BAD_LIST);
    for (n = 4097; n <= 4104; n++)
        check_refused("BAD_LIST, many", operation, call_of(0, 6, 8, 0), aggregate(64, 8, many_words, n), ROOM, BARKPADDLE_BAD_LIST);
    a = perform(operation, call_of(0, 6, 8, 0), aggregate(8, 8, many_words, 4096), lent, ROOM);
    check_number("1,024 pieces", "refusal", BARKPADDLE_ACCEPTED, a.outcome.refusal);
    check_number("1,024 pieces", "way", BARKPADDLE_WAY_PIECES, a.outcome.way);

    /* the shape's size, its alignment, then the pieces from the first, each by kind, size, offset, alignment */
    check_refused("the shape's size", operation, call_of(0, 6, 8, 0), aggregate(16777217, 4097, all_wrong, 4), ROOM, BARKPADDLE_BAD_SIZE);
    check_refused(
        "the shape's alignment", operation, call_of(0, 6, 8, 0), aggregate(16777216, 4097, all_wrong, 4), ROOM, BARKPADDLE_BAD_ALIGN);
    for (n = 0; n < 4; n++) {
        check_refused("a piece", operation, call_of(0, 6, 8, 0), aggregate(16777216, 4096, wrong[n], 4), 0, refusals[n]);
        for (i = 0; i < 4; i++) {
            two[i] = wrong[4][i];
            two[4 + i] = wrong[n][i];
        }
        check_refused("the second piece", operation, call_of(0, 6, 8, 0), aggregate(8, 8, two, 8), ROOM, refusals[n]);
        for (i = 0; i < 4; i++) {
            two[i] = wrong[n][i];
            two[4 + i] = wrong[(n + 1) % 4][i];
        }
        check_refused("the first of two", operation, call_of(0, 6, 8, 0), aggregate(8, 8, two, 8), ROOM, refusals[n]);
    }
    a = perform(operation, call_of(0, 6, 8, 0), aggregate(16777216, 4096, NULL, 0), NULL, 0);
    check_number("the largest shape", "refusal", BARKPADDLE_ACCEPTED, a.outcome.refusal);
    a = perform(operation, call_of(0, 6, 8, 0), aggregate(16777216, 0, largest, 8), NULL, 0);
    check_number("the largest pieces", "refusal", BARKPADDLE_ACCEPTED, a.outcome.refusal);

    /* a scalar: kind, size, alignment */
    for (i = 0; i < COUNT(kinds); i++)
        check_refused("a scalar's kind", operation, call_of(0, 6, 8, 0), scalar(kinds[i], 65, 4097), ROOM, BARKPADDLE_BAD_KIND);
    check_refused("a scalar's size", operation, call_of(0, 6, 8, 0), scalar(4, 65, 4097), ROOM, BARKPADDLE_BAD_SIZE);
    check_refused("a scalar's size", operation, call_of(0, 6, 8, 0), scalar(0, UINT64_MAX, 0), ROOM, BARKPADDLE_BAD_SIZE);
    check_refused("a scalar's alignment", operation, call_of(0, 6, 8, 0), scalar(4, 64, 4097), ROOM, BARKPADDLE_BAD_ALIGN);
    a = perform(operation, call_of(0, 6, 8, 0), scalar(4, 64, 4096), NULL, 0);
    check_number("the largest scalar", "refusal", BARKPADDLE_ACCEPTED, a.outcome.refusal);
}

/* ---- the start and the mark ---- */

/* The mark by value on the call that `kept` is, and on `kept` itself. */
static barkpaddle_answer mark_both_ways(const char *place, barkpaddle_call *kept)
{
    barkpaddle_call before = *kept;
    barkpaddle_answer a = barkpaddle_variadic(HANDED(before));
    int sets = a.outcome.refusal == BARKPADDLE_ACCEPTED && before.abi == BARKPADDLE_ABI_WINDOWS_ARM64;

    check_stored(place, a, barkpaddle_bridge_variadic(kept), &before, kept);
    check_number(place, "the mark that is set or handed on", sets ? 1 : before.integers_only, a.next.integers_only);
    return a;
}

static barkpaddle_answer mark(barkpaddle_call c)
{
    return mark_both_ways("the mark, lent", &c);
}

static void starts(void)
{
    /* registers of the rows */
    static const uint64_t integers[] = {6, 8, 8, 8, 4, 8, 0, 1, 2, 3, 0, 1, 2, 3, 0, 1, 2, 3, 0, 1, 2, 3, 2, 2, 0, 0, 0, 2, 0, 2, 8, 8, 8};
    static const uint64_t floats[] = {8, 8, 8, 8, 0, 8, 0, 0, 0, 0, 0, 0, 0, 0, 0, 0, 0, 0, 0, 0, 0, 0, 0, 0, 0, 0, 0, 0, 0, 0, 0, 8, 8};
    uint64_t i;

    for (i = 0; i < BARKPADDLE_ABI_COUNT; i++) {
        barkpaddle_call c = call_of(i, integers[i], floats[i], 0);
        barkpaddle_call marked = c;

        check_answer("fresh", barkpaddle_fresh(i), 0, 0, c, no_spending, 0);
        marked.integers_only = i == BARKPADDLE_ABI_WINDOWS_ARM64;
        check_answer("variadic", mark(c), 0, 0, marked, no_spending, 0);
        if (marked.integers_only)
            check_answer("variadic twice", mark(call_of(i, c.integer, c.float_, 6)), 0, 0, marked, no_spending, 0);
        else
            check_answer("mark", mark(call_of(i, 0, 0, 6)), BARKPADDLE_BAD_CALL, 0, call_of(i, 0, 0, 6), no_spending, 0);
        check_answer(
            "variadic, too many", mark(call_of(i, c.integer + 1, 0, 0)), BARKPADDLE_BAD_CALL, 0, call_of(i, c.integer + 1, 0, 0),
            no_spending, 0);
    }
    for (i = 0; i < COUNT(no_row); i++) {
        uint64_t abi = no_row[i];

        check_answer("fresh, BAD_ABI", barkpaddle_fresh(abi), BARKPADDLE_BAD_ABI, 0, call_of(0, 0, 0, 0), no_spending, 0);
        check_answer("variadic, BAD_ABI", mark(call_of(abi, 9, 9, 9)), BARKPADDLE_BAD_ABI, 0, call_of(abi, 9, 9, 9), no_spending, 0);
    }
}

/* ---- a lent call ---- */

/* A lent call whose operation is refused: its number, all else 0, and the call and the buffer as they were. */
static void check_form_refused(enum operation operation, barkpaddle_call c, uint64_t form, uint64_t refusal)
{
    static const uint64_t no_pieces[] = {UINT64_MAX, UINT64_MAX, UINT64_MAX};
    barkpaddle_call kept = c;
    barkpaddle_what what = what_of(nothing);
    barkpaddle_outcome outcome;
    int empty;

    what.form = form;
    for (empty = 0; empty < 2; empty++) {
        fill();
        outcome = by_lending(
            operation, &kept, what, empty ? NULL : no_pieces, empty ? 0 : COUNT(no_pieces), empty ? NULL : lent, empty ? 0 : ROOM);
        check_number("form", "refusal", refusal, outcome.refusal);
        check_number("form", "way", 0, outcome.way);
        check_number("form", "integers spent", 0, outcome.integers_passed | outcome.integers_given);
        check_number("form", "floats spent", 0, outcome.floats_passed | outcome.floats_given);
        check_number("form", "slots", 0, outcome.slots);
        check_number("form", "the stack", 0, outcome.stack_at | outcome.stack_bytes);
        check_number("form", "a difference in the call", 0, memcmp(&c, &kept, sizeof kept) != 0);
        check_lent("form", NULL, 0);
    }
}

/* A form that isn't known is BAD_KIND, whatever stands in the other fields; the call is refused before it. */
static void forms_of(enum operation operation)
{
    static const uint64_t unknown[] = {
        3, 4, 5, 255, 256, 257, UINT64_C(1) << 32, (UINT64_C(1) << 32) + 1, (UINT64_C(1) << 32) + 2, UINT64_C(1) << 63, UINT64_MAX};
    uint64_t i;

    for (i = 0; i < COUNT(unknown); i++) {
        check_form_refused(operation, call_of(0, 6, 8, 0), unknown[i], BARKPADDLE_BAD_KIND);
        check_form_refused(operation, further_on(call_of(0, 6, 8, 0), BARKPADDLE_MOST_STACK), unknown[i], BARKPADDLE_BAD_KIND);
        check_form_refused(operation, call_of(3, 0, 0, 1), unknown[i], BARKPADDLE_BAD_KIND);
        check_form_refused(operation, call_of(BARKPADDLE_ABI_COUNT, 9, 9, 1), unknown[i], BARKPADDLE_BAD_ABI);
        check_form_refused(operation, call_of(0, 7, 8, 0), unknown[i], BARKPADDLE_BAD_CALL);
        check_form_refused(operation, call_of(0, 6, 8, 1), unknown[i], BARKPADDLE_BAD_CALL);
        check_form_refused(operation, further_on(call_of(0, 6, 8, 0), BARKPADDLE_MOST_STACK + 1), unknown[i], BARKPADDLE_BAD_CALL);
    }
    /* void is refused for its call alone */
    check_form_refused(operation, call_of(BARKPADDLE_ABI_COUNT, 0, 0, 0), BARKPADDLE_FORM_VOID, BARKPADDLE_BAD_ABI);
}

/* README's record, then README's call that broke: here the numbers are expected, not another entry's answers. */
static void lent_calls(void)
{
    static const uint64_t slots[] = {0, 0, 8, 2, 8, 0};
    barkpaddle_call kept = barkpaddle_fresh(BARKPADDLE_ABI_SYSV_AMD64).next;
    barkpaddle_what what = what_of(aggregate(16, 8, NULL, 0));
    barkpaddle_what word = what_of(scalar(BARKPADDLE_KIND_INTEGER, 8, 8));
    barkpaddle_outcome outcome;
    uint64_t i;

    fill();
    outcome = barkpaddle_bridge_argument(&kept, what, int8_double, COUNT(int8_double), lent, ROOM);
    check_number("lent record", "refusal", BARKPADDLE_ACCEPTED, outcome.refusal);
    check_number("lent record", "way", BARKPADDLE_WAY_PIECES, outcome.way);
    check_number("lent record", "integers_passed", 0, outcome.integers_passed);
    check_number("lent record", "integers_given", 1, outcome.integers_given);
    check_number("lent record", "floats_passed", 0, outcome.floats_passed);
    check_number("lent record", "floats_given", 1, outcome.floats_given);
    check_number("lent record", "slots", 2, outcome.slots);
    check_number("lent record", "the stack", 0, outcome.stack_at | outcome.stack_bytes | kept.stack);
    check_lent("lent record", slots, COUNT(slots));
    for (i = 0; i < 4; i++) {
        check_number("lent record", "integers left", 5 - i, kept.integer);
        outcome = barkpaddle_bridge_argument(&kept, word, NULL, 0, NULL, 0);
        check_number("lent word", "way", BARKPADDLE_WAY_DIRECT, outcome.way);
        check_number("lent word", "integers_given", 1, outcome.integers_given);
    }
    outcome = barkpaddle_bridge_argument(&kept, what, two_int8, COUNT(two_int8), NULL, 0);
    check_number("the call that broke", "refusal", BARKPADDLE_ACCEPTED, outcome.refusal);
    check_number("the call that broke", "way", BARKPADDLE_WAY_MEMORY, outcome.way);
    check_number("the call that broke", "integers left", 1, kept.integer);
    check_number("the call that broke", "floats left", 7, kept.float_);
    check_number("the call that broke", "stack_at", 0, outcome.stack_at);
    check_number("the call that broke", "stack_bytes", 16, outcome.stack_bytes);
    check_number("the call that broke", "the next offset", 16, kept.stack);
    what.size = 100;
    outcome = barkpaddle_bridge_returns(&kept, what, NULL, 0, NULL, 0);
    check_number("a pointer for a result", "way", BARKPADDLE_WAY_REFERENCE, outcome.way);
    check_number("a pointer for a result", "integers left", 0, kept.integer);
    check_number("a pointer for a result", "the next offset", 16, kept.stack);
    outcome = barkpaddle_bridge_argument(&kept, word, NULL, 0, NULL, 0);
    check_number("a word behind the record", "stack_at", 16, outcome.stack_at);
    check_number("a word behind the record", "stack_bytes", 8, outcome.stack_bytes);
    check_number("a word behind the record", "the next offset", 24, kept.stack);

    kept = call_of(BARKPADDLE_ABI_WINDOWS_ARM64, 8, 8, 0);
    outcome = barkpaddle_bridge_variadic(&kept);
    check_number("lent mark", "refusal", BARKPADDLE_ACCEPTED, outcome.refusal);
    check_number("lent mark", "integers_only", 1, kept.integers_only);
    fill();
    outcome = barkpaddle_bridge_variadic_argument(&kept, what_of(scalar(BARKPADDLE_KIND_DOUBLE, 8, 8)), NULL, 0, lent, 3);
    check_number("after the lent mark", "way", BARKPADDLE_WAY_PIECES, outcome.way);
    check_number("after the lent mark", "integers left", 7, kept.integer);
    check_number("after the lent mark", "floats left", 8, kept.float_);
    check_lent("after the lent mark", slots, 3);
}

/* One call in both forms: what one stores or answers goes into the other as it stands. */
static void one_call_in_both_forms(void)
{
    static const uint64_t given[] = {0, 1, 0, 0};
    barkpaddle_answer a = barkpaddle_fresh(BARKPADDLE_ABI_SYSV_AMD64);
    barkpaddle_outcome expected = outcome_of(BARKPADDLE_ACCEPTED, BARKPADDLE_WAY_DIRECT, given, 0);
    barkpaddle_what word = what_of(scalar(BARKPADDLE_KIND_INTEGER, 8, 8));
    uint64_t left;

    for (left = 6; left > 0; left -= 2) {
        barkpaddle_call *kept = &a.next;

        check_outcome("lent an answer's call", expected, barkpaddle_bridge_argument(kept, word, NULL, 0, NULL, 0));
        check_call("lent an answer's call", call_of(BARKPADDLE_ABI_SYSV_AMD64, left - 1, 8, 0), *kept);
        a = barkpaddle_argument_scalar(HANDED(*kept), BARKPADDLE_KIND_INTEGER, 8, 8, NULL, 0);
        check_outcome("a lent call's numbers", expected, a.outcome);
        check_call("a lent call's numbers", call_of(BARKPADDLE_ABI_SYSV_AMD64, left - 2, 8, 0), a.next);
    }
}

/*
 * A mark of 2 is a yes, and comes back as 2. It is a yes where a Double goes in an integer register, and where a call is refused since its
 * description has no mark.
 */
static void mark_of_two(void)
{
    static const uint64_t given[] = {0, 1, 0, 0}, slot[] = {0, 0, 8};
    const barkpaddle_call marked = call_of(BARKPADDLE_ABI_WINDOWS_ARM64, 8, 8, 2), next = call_of(BARKPADDLE_ABI_WINDOWS_ARM64, 7, 8, 2);
    const barkpaddle_call bad = call_of(BARKPADDLE_ABI_SYSV_AMD64, 6, 8, 2);
    const barkpaddle_outcome in_an_integer = outcome_of(BARKPADDLE_ACCEPTED, BARKPADDLE_WAY_PIECES, given, 1);
    const barkpaddle_outcome bad_size = outcome_of(BARKPADDLE_BAD_SIZE, 0, no_spending, 0);
    const barkpaddle_outcome bad_call = outcome_of(BARKPADDLE_BAD_CALL, 0, no_spending, 0);
    barkpaddle_what what = what_of(scalar(BARKPADDLE_KIND_DOUBLE, 8, 8)), wide = what_of(scalar(BARKPADDLE_KIND_DOUBLE, 65, 8));
    barkpaddle_call kept;
    barkpaddle_answer a;

    fill();
    a = barkpaddle_argument_scalar(BARKPADDLE_ABI_WINDOWS_ARM64, 8, 8, 2, 0, BARKPADDLE_KIND_DOUBLE, 8, 8, lent, ROOM);
    check_outcome("a mark of 2", in_an_integer, a.outcome);
    check_call("a mark of 2", next, a.next);
    check_lent("a mark of 2", slot, COUNT(slot));
    a = barkpaddle_argument_scalar(BARKPADDLE_ABI_WINDOWS_ARM64, 8, 8, 2, 0, BARKPADDLE_KIND_DOUBLE, 65, 8, NULL, 0);
    check_outcome("a mark of 2, a refused value", bad_size, a.outcome);
    check_call("a mark of 2, a refused value", marked, a.next);
    a = barkpaddle_argument_scalar(BARKPADDLE_ABI_SYSV_AMD64, 6, 8, 2, 0, BARKPADDLE_KIND_DOUBLE, 8, 8, NULL, 0);
    check_outcome("a mark of 2, a refused call", bad_call, a.outcome);
    check_call("a mark of 2, a refused call", bad, a.next);

    fill();
    kept = marked;
    check_outcome("a lent mark of 2", in_an_integer, barkpaddle_bridge_argument(&kept, what, NULL, 0, lent, ROOM));
    check_call("a lent mark of 2", next, kept);
    check_lent("a lent mark of 2", slot, COUNT(slot));
    kept = marked;
    check_outcome("a lent mark of 2, a refused value", bad_size, barkpaddle_bridge_argument(&kept, wide, NULL, 0, NULL, 0));
    check_call("a lent mark of 2, a refused value", marked, kept);
    kept = bad;
    check_outcome("a lent mark of 2, a refused call", bad_call, barkpaddle_bridge_argument(&kept, what, NULL, 0, NULL, 0));
    check_call("a lent mark of 2, a refused call", bad, kept);
}

/* ---- a random history ---- */

#define OPERATIONS 100000
#define CALL_LASTS 8

static uint64_t state = 20;

/* The next random number below `limit`: splitmix64. */
static uint64_t below(uint64_t limit)
{
    uint64_t z;

    state += UINT64_C(0x9E3779B97F4A7C15);
    z = state;
    z = (z ^ (z >> 30)) * UINT64_C(0xBF58476D1CE4E5B9);
    z = (z ^ (z >> 27)) * UINT64_C(0x94D049BB133111EB);
    return (z ^ (z >> 31)) % limit;
}

static const uint64_t sizes[] = {0, 1, 2, 4, 8, 8, 8, 10, 16, 16, 32};
static const uint64_t format_sizes[] = {0, 4, 8, 16, 16};

/* A scalar's three words, now and then one of them past its limit; a float has its format's size and alignment mostly. */
static void random_scalar(uint64_t words[3], int odd)
{
    uint64_t kind = below(5);

    words[0] = kind;
    words[1] = kind == 0 || below(8) == 0 ? sizes[below(COUNT(sizes))] : format_sizes[kind];
    words[2] = below(8) == 0 ? UINT64_C(1) << below(5) : words[1];
    if (odd && below(3) == 0)
        words[0] = 5 + below(2);
    if (odd && below(3) == 0)
        words[1] = 65;
    if (odd && below(3) == 0)
        words[2] = 4097;
}

/* A size for an aggregate whose furthest piece ends there: mostly rounded up, so that all pieces are inside; now and then just that, one
 * less, so that a piece is one past, any, or with a hole behind the pieces. */
static uint64_t random_size(uint64_t furthest, uint64_t align)
{
    switch (below(16)) {
    case 0:
        return furthest;
    case 1:
        return furthest == 0 ? 0 : furthest - 1;
    case 2:
        return below(40);
    case 3:
        return furthest + below(24);
    default:
        return (furthest + align - 1) / align * align;
    }
}

static value random_value(void)
{
    static uint64_t words[4 * 9];
    int odd = below(8) == 0;
    uint64_t end = 0;
    uint64_t furthest = 0;
    uint64_t align = 1;
    uint64_t one_kind = below(2);
    uint64_t count;
    uint64_t i;
    value v;

    if (below(12) == 0)
        return nothing;
    if (below(2) == 0) {
        random_scalar(words, odd);
        return scalar(words[0], words[1], words[2]);
    }
    count = below(3) == 0 ? below(10) : below(4);
    for (i = 0; i < count; i++) {
        uint64_t *piece = words + BARKPADDLE_PIECE_WORDS * i;

        if (i > 0 && one_kind)
            memcpy(piece, piece - BARKPADDLE_PIECE_WORDS, 3 * sizeof *piece);
        else
            random_scalar(piece, odd && below(3) == 0);
        if (piece[2] > 0 && piece[2] <= 16)
            end = (end + piece[2] - 1) / piece[2] * piece[2];
        piece[3] = below(16) == 0 ? below(24) : end;
        if (piece[1] <= 64)
            end += piece[1];
        if (piece[3] + piece[1] > furthest)
            furthest = piece[3] + piece[1];
        if (piece[2] <= 16 && piece[2] > align)
            align = piece[2];
    }
    v = aggregate(random_size(furthest, align), align, words, BARKPADDLE_PIECE_WORDS * count);
    if (odd && below(4) == 0 && count > 0)
        v.words_length -= 1 + below(3);
    if (odd && below(6) == 0)
        v.size = BARKPADDLE_LARGEST_SHAPE + 1;
    if (odd && below(6) == 0)
        v.align = BARKPADDLE_LARGEST_ALIGN + 1;
    v.complex_ = below(4) == 0 ? UINT64_C(1) << below(64) : 0;
    v.floating = below(4) == 0 ? UINT64_C(1) << below(64) : 0;
    return v;
}

/* A call that can't be: another description, more registers than it has, an offset past the limit, or a mark that isn't its own. */
static barkpaddle_call spoilt(barkpaddle_call c)
{
    switch (below(5)) {
    case 0:
        c.abi = below(2) ? BARKPADDLE_ABI_COUNT + below(3) : c.abi + (UINT64_C(1) << 32);
        break;
    case 1:
        c.integer = 9 + below(3);
        break;
    case 2:
        c.float_ = UINT64_MAX - below(3);
        break;
    case 3:
        c.stack = below(2) ? BARKPADDLE_MOST_STACK + 1 + below(3) : UINT64_MAX - below(3);
        break;
    default:
        c.integers_only = UINT64_C(1) << below(64);
    }
    return c;
}

/* Of an aggregate whose words are whole pieces, each below its limits. */
static int has_a_piece_past(value v)
{
    const uint64_t *piece;

    for (piece = v.words; piece < v.words + v.words_length; piece += BARKPADDLE_PIECE_WORDS)
        if (piece[BARKPADDLE_PIECE_OFFSET] + piece[BARKPADDLE_PIECE_SIZE] > v.size)
            return 1;
    return 0;
}

/* BAD_EXTENT is given to an aggregate with a piece past it, unless another refusal goes before, and to nothing else. */
static void check_extent(const char *place, value v, uint64_t refusal)
{
    int none_before = refusal == BARKPADDLE_ACCEPTED || refusal == BARKPADDLE_NO_ROOM || refusal == BARKPADDLE_BAD_EXTENT;

    check_number(place, "BAD_EXTENT", v.what == AGGREGATE && none_before && has_a_piece_past(v), refusal == BARKPADDLE_BAD_EXTENT);
}

/* Where a value stands on the stack, how many bytes it has there, and the offset behind it. */
typedef struct stacked {
    uint64_t at, bytes, next;
} stacked;

static uint64_t round_up(uint64_t number, uint64_t to)
{
    return (number + to - 1) / to * to;
}

/* A second reading of the table of REFERENCE 9.9: where a value stands that travels so, from this call's offset on. A return has an address
 * there or nothing, an argument what isn't in the registers that it was given. */
static stacked stacks_up(enum operation operation, barkpaddle_call c, value v, barkpaddle_outcome o)
{
    barkpaddle_description_fields d = barkpaddle_description(c.abi);
    uint64_t w = d.integer_width;
    int packed = d.stack_args == BARKPADDLE_STACK_ARGS_PACKED;
    int dots = operation == VARIADIC_ARGUMENT && d.variadic == BARKPADDLE_VARIADIC_ALWAYS_MEMORY;
    uint64_t bytes = 0;
    uint64_t rounding = w;
    stacked there = {0, 0, 0};

    if (o.way == BARKPADDLE_WAY_REFERENCE) {
        int elsewhere = operation == RETURN && d.return_pointer == BARKPADDLE_RETURN_POINTER_DEDICATED;

        bytes = elsewhere || o.integers_given > 0 ? 0 : w;
    } else if (operation != RETURN && v.what == SCALAR) {
        bytes = o.floats_given > 0 || v.size <= w * o.integers_given ? 0 : v.size - w * o.integers_given;
        rounding = v.align == 16 ? 16 : packed ? v.size : w;
    } else if (operation != RETURN && v.what == AGGREGATE && o.way != BARKPADDLE_WAY_IGNORE) {
        uint64_t in_memory =
            barkpaddle_in_memory(HANDED(c), v.size, v.align, v.complex_, v.floating, v.words, v.words_length).value;

        bytes = o.way == BARKPADDLE_WAY_MEMORY ? v.size : w * (o.slots - o.integers_given - o.floats_given);
        rounding = packed || in_memory > w ? in_memory : w;
    }
    if (dots && rounding < 8)
        rounding = 8;
    if (rounding == 0)
        rounding = 1;
    there.bytes = packed && !dots ? bytes : round_up(bytes, w);
    there.at = there.bytes == 0 ? 0 : round_up(c.stack, rounding);
    there.next = there.bytes == 0 ? c.stack : there.at + there.bytes;
    return there;
}

/* An operation that its call and its value aren't refused for: at offset 0 all has room on the stack, and from there it is known how the
 * value travels, whatever the offset. NO_ROOM is given where the slots don't fit or the stack ends, and nowhere else. */
static void check_stacked(const char *place, enum operation operation, barkpaddle_call c, value v, uint64_t length, barkpaddle_answer a)
{
    static uint64_t slots[BARKPADDLE_MOST_SLOT_WORDS];
    barkpaddle_outcome o = by_value(operation, further_on(c, 0), v, slots, COUNT(slots)).outcome;
    stacked there = stacks_up(operation, c, v, o);
    int has_room = length / BARKPADDLE_SLOT_WORDS >= o.slots && there.next <= BARKPADDLE_MOST_STACK;

    check_number(place, "NO_ROOM", !has_room, a.outcome.refusal == BARKPADDLE_NO_ROOM);
    if (a.outcome.refusal != BARKPADDLE_ACCEPTED)
        return;
    o.stack_at = there.at;
    o.stack_bytes = there.bytes;
    check_outcome(place, o, a.outcome);
    check_number(place, "the next offset", there.next, a.next.stack);
}

/*
 * Calls that are kept and lent, operation after operation, on all rows in turn. What the library keeps in them is held against the answers
 * by value, and no answer by value is ever put into them.
 */
static void history(void)
{
    static unsigned long of_refusal[10], of_way[5], of_row[BARKPADDLE_ABI_COUNT], of_operation[4], marked, oddly_marked;
    static unsigned long on_the_stack, past_the_stack;
    barkpaddle_call kept = call_of(0, 6, 8, 0);
    uint64_t n;
    uint64_t i;

    for (n = 0; n < OPERATIONS; n++) {
        uint64_t row = n / CALL_LASTS % BARKPADDLE_ABI_COUNT;
        uint64_t which = below(10);
        uint64_t refusal;
        uint64_t way;
        barkpaddle_call aside;
        barkpaddle_answer a;

        if (n % CALL_LASTS == 0) {
            kept = barkpaddle_fresh(row).next;
            if (below(3) == 0)
                mark_both_ways("history, marked", &kept);
            kept.integers_only <<= below(64); /* another yes, where it is marked */
            if (below(4) == 0)
                kept.stack = BARKPADDLE_MOST_STACK - below(64);
        }
        aside = kept;
        if (below(24) == 0)
            kept = spoilt(kept);
        if (which == 0) {
            a = mark_both_ways("history, the mark", &kept);
            of_operation[3]++;
        } else {
            enum operation operation = which == 1 ? RETURN : which < 7 ? ARGUMENT : VARIADIC_ARGUMENT;
            uint64_t length = below(4) == 0 ? below(3 * BARKPADDLE_SLOT_WORDS) : BARKPADDLE_MOST_SLOT_WORDS;
            value v = random_value();
            barkpaddle_call before = kept;

            fill();
            a = both_ways("history", operation, &kept, v, length == 0 ? NULL : lent, length);
            check_extent("history", v, a.outcome.refusal);
            if (a.outcome.refusal == BARKPADDLE_ACCEPTED || a.outcome.refusal == BARKPADDLE_NO_ROOM)
                check_stacked("history", operation, before, v, length, a);
            on_the_stack += a.outcome.stack_bytes > 0;
            past_the_stack += a.outcome.refusal == BARKPADDLE_NO_ROOM && length == BARKPADDLE_MOST_SLOT_WORDS;
            of_operation[operation]++;
            for (i = a.outcome.slots * BARKPADDLE_SLOT_WORDS; i < ROOM; i++)
                if (lent_again[i] != untouched(i))
                    check_number("history", "a word behind the slots", untouched(i), lent_again[i]);
        }
        refusal = a.outcome.refusal;
        way = a.outcome.way;
        check_number("history", "a refusal or a way past the last", 1, refusal < COUNT(of_refusal) && way < COUNT(of_way));
        if (refusal >= COUNT(of_refusal) || way >= COUNT(of_way))
            continue;
        of_refusal[refusal]++;
        of_row[row]++;
        marked += kept.integers_only != 0;
        oddly_marked += kept.integers_only > 1;
        if (refusal == BARKPADDLE_ACCEPTED && which != 0)
            of_way[way]++;
        else if (refusal == BARKPADDLE_BAD_ABI || refusal == BARKPADDLE_BAD_CALL)
            kept = aside;
    }

    /* every refusal, way, row and operation was among them, or this compares less than it says; BAD_AREA is for variable lists alone, and
     * those past BAD_EXTENT for types */
    for (i = 0; i < COUNT(of_refusal); i++)
        if (i == BARKPADDLE_BAD_AREA)
            check_number("history", "how often BAD_AREA was seen", 0, of_refusal[i]);
        else
            check_number("history", "a refusal that was seen often", 1, of_refusal[i] >= 100);
    for (i = 0; i < COUNT(of_way); i++)
        check_number("history", "a way that was seen often", 1, of_way[i] >= 1000);
    for (i = 0; i < COUNT(of_row); i++)
        check_number("history", "a row that was seen often", 1, of_row[i] >= 3000);
    for (i = 0; i < COUNT(of_operation); i++)
        check_number("history", "an operation that was seen often", 1, of_operation[i] >= 5000);
    check_number("history", "marked calls that were seen often", 1, marked >= 500);
    check_number("history", "marks other than 1 that were seen often", 1, oddly_marked >= 300);
    check_number("history", "values on the stack that were seen often", 1, on_the_stack >= 10000);
    check_number("history", "values past its end that were seen often", 1, past_the_stack >= 1000);
    printf("history: %d operations, by value and lent, of which %lu refused\n", OPERATIONS, OPERATIONS - of_refusal[0]);
}

/* ---- answers of two numbers ---- */

static void check_told(const char *place, barkpaddle_told told, uint64_t refusal, uint64_t number)
{
    check_number(place, "refusal", refusal, told.refusal);
    check_number(place, "value", number, told.value);
}

static void in_memory(void)
{
    static const uint64_t all_wrong[] = {5, 65, 4097, 16777217};

    /* its own alignment; on row 2 at least the integer width, unless it is homogeneous */
    check_told("in_memory, row 0", barkpaddle_in_memory(0, 6, 8, 0, 0, 100, 4, 0, 0, NULL, 0), 0, 4);
    check_told("in_memory, row 2", barkpaddle_in_memory(2, 8, 8, 0, 0, 100, 4, 0, 0, NULL, 0), 0, 8);
    check_told("in_memory, row 2, wide", barkpaddle_in_memory(2, 8, 8, 0, 0, 100, 16, 0, 0, NULL, 0), 0, 16);
    check_told("in_memory, row 2, floats", barkpaddle_in_memory(2, 8, 8, 0, 0, 12, 4, 0, 0, singles, 12), 0, 4);
    check_told("in_memory, row 2, five floats", barkpaddle_in_memory(2, 8, 8, 0, 0, 20, 4, 0, 0, singles, 20), 0, 8);
    check_told("in_memory, no alignment", barkpaddle_in_memory(0, 0, 0, 0, 0, 0, 0, 0, 0, NULL, 0), 0, 0);

    check_told(
        "in_memory", barkpaddle_in_memory(BARKPADDLE_ABI_COUNT, 9, 9, 1, 0, 16777217, 4097, 0, 0, all_wrong, 3), BARKPADDLE_BAD_ABI, 0);
    check_told("in_memory", barkpaddle_in_memory(2, 9, 8, 0, 0, 16777217, 4097, 0, 0, all_wrong, 3), BARKPADDLE_BAD_CALL, 0);
    check_told("in_memory", barkpaddle_in_memory(2, 8, 8, 1, 0, 16777217, 4097, 0, 0, all_wrong, 3), BARKPADDLE_BAD_CALL, 0);
    check_told("in_memory", barkpaddle_in_memory(2, 8, 8, 0, 0, 16777217, 4097, 0, 0, all_wrong, 3), BARKPADDLE_BAD_LIST, 0);
    check_told("in_memory", barkpaddle_in_memory(2, 8, 8, 0, 0, 16777217, 4097, 0, 0, all_wrong, 4), BARKPADDLE_BAD_SIZE, 0);
    check_told("in_memory", barkpaddle_in_memory(2, 8, 8, 0, 0, 16777216, 4097, 0, 0, all_wrong, 4), BARKPADDLE_BAD_ALIGN, 0);
    check_told("in_memory", barkpaddle_in_memory(2, 8, 8, 0, 0, 16777216, 4096, 0, 0, all_wrong, 4), BARKPADDLE_BAD_KIND, 0);
}

/* ---- the stack ---- */

/* An operation on a call, the way, and the numbers of its answer. */
typedef struct placed {
    const char *place;
    enum operation operation;
    barkpaddle_call c;
    value v;
    uint64_t way;
    uint64_t numbers[NUMBERS];
} placed;

#define A_SCALAR(kind, size, align) {SCALAR, kind, size, align, 0, 0, NULL, 0}
#define AN_INTEGER(size) A_SCALAR(BARKPADDLE_KIND_INTEGER, size, size)
#define A_RECORD(size, align) {AGGREGATE, 0, size, align, 0, 0, NULL, 0}
#define A_RECORD_OF(size, align, words) {AGGREGATE, 0, size, align, 0, 0, words, COUNT(words)}

static const uint64_t three_singles[] = {1, 4, 4, 0, 1, 4, 4, 4, 1, 4, 4, 8};

/* A call here is its row, I, F, the mark and the offset before; the last three numbers are the place, the length and the offset after. */
static const placed on_the_stack[] = {
    {"the call that broke", ARGUMENT, {0, 1, 8, 0, 0}, A_RECORD_OF(16, 8, two_int8), BARKPADDLE_WAY_MEMORY, {1, 8, 0, 0, 0, 0, 0, 16, 16}},
    {"r9 behind it", ARGUMENT, {0, 1, 8, 0, 16}, AN_INTEGER(8), BARKPADDLE_WAY_DIRECT, {0, 8, 0, 1, 0, 0, 0, 0, 16}},
    {"a word behind it", ARGUMENT, {0, 0, 8, 0, 16}, AN_INTEGER(8), BARKPADDLE_WAY_DIRECT, {0, 8, 0, 0, 0, 0, 16, 8, 24}},
    {"row 0, X87 of 16", ARGUMENT, {0, 6, 8, 0, 8}, A_SCALAR(3, 16, 16), BARKPADDLE_WAY_DIRECT, {6, 8, 0, 0, 0, 0, 16, 16, 32}},
    {"row 0, X87 of 12", ARGUMENT, {0, 6, 8, 0, 8}, A_SCALAR(3, 12, 4), BARKPADDLE_WAY_DIRECT, {6, 8, 0, 0, 0, 0, 8, 16, 24}},
    {"row 0, five Singles", ARGUMENT, {0, 6, 8, 0, 0}, A_RECORD_OF(20, 4, singles), BARKPADDLE_WAY_MEMORY, {6, 8, 0, 0, 0, 0, 0, 24, 24}},
    {"row 0, a Single", ARGUMENT, {0, 6, 0, 0, 0}, A_SCALAR(1, 4, 4), BARKPADDLE_WAY_DIRECT, {6, 0, 0, 0, 0, 0, 0, 8, 8}},
    {"row 0, a late return", RETURN, {0, 0, 8, 0, 0}, A_RECORD(24, 8), BARKPADDLE_WAY_REFERENCE, {0, 8, 0, 0, 0, 0, 0, 8, 8}},
    {"row 1, a late return", RETURN, {1, 0, 8, 0, 0}, A_RECORD(24, 8), BARKPADDLE_WAY_REFERENCE, {0, 8, 0, 0, 0, 0, 0, 0, 0}},
    {"row 1, 16 bytes", ARGUMENT, {1, 1, 8, 0, 8}, AN_INTEGER(16), BARKPADDLE_WAY_DIRECT, {0, 8, 1, 0, 0, 0, 16, 16, 32}},
    {"row 2, a byte", ARGUMENT, {2, 0, 8, 0, 0}, AN_INTEGER(1), BARKPADDLE_WAY_DIRECT, {0, 8, 0, 0, 0, 0, 0, 1, 1}},
    {"row 2, two bytes", ARGUMENT, {2, 0, 8, 0, 1}, AN_INTEGER(2), BARKPADDLE_WAY_DIRECT, {0, 8, 0, 0, 0, 0, 2, 2, 4}},
    {"row 2, four bytes", ARGUMENT, {2, 0, 8, 0, 4}, AN_INTEGER(4), BARKPADDLE_WAY_DIRECT, {0, 8, 0, 0, 0, 0, 4, 4, 8}},
    {"row 2, Singles", ARGUMENT, {2, 8, 0, 0, 4}, A_RECORD_OF(12, 4, three_singles), BARKPADDLE_WAY_MEMORY, {8, 0, 0, 0, 0, 0, 4, 12, 16}},
    {"row 2, Singles after the dots", VARIADIC_ARGUMENT, {2, 8, 0, 0, 4}, A_RECORD_OF(12, 4, three_singles), BARKPADDLE_WAY_MEMORY,
     {8, 0, 0, 0, 0, 0, 8, 16, 24}},
    {"row 2, a byte after the dots", VARIADIC_ARGUMENT, {2, 8, 8, 0, 0}, AN_INTEGER(1), BARKPADDLE_WAY_DIRECT, {8, 8, 0, 0, 0, 0, 0, 8, 8}},
    {"row 2, an address after them", VARIADIC_ARGUMENT, {2, 8, 8, 0, 0}, A_RECORD(24, 8), BARKPADDLE_WAY_REFERENCE,
     {8, 8, 0, 0, 0, 0, 0, 8, 8}},
    {"row 2, a float of 24", ARGUMENT, {2, 1, 8, 0, 8}, A_SCALAR(2, 24, 8), BARKPADDLE_WAY_DIRECT, {0, 8, 0, 1, 0, 0, 24, 16, 40}},
    {"row 2, three bytes", ARGUMENT, {2, 0, 8, 0, 0}, A_RECORD(3, 1), BARKPADDLE_WAY_MEMORY, {0, 8, 0, 0, 0, 0, 0, 3, 3}},
    {"row 4, size 12", ARGUMENT, {4, 0, 0, 0, 0}, A_RECORD(12, 4), BARKPADDLE_WAY_REFERENCE, {0, 0, 0, 0, 0, 0, 0, 8, 8}},
    {"row 4, a Quad", ARGUMENT, {4, 0, 0, 0, 0}, A_SCALAR(4, 16, 16), BARKPADDLE_WAY_REFERENCE, {0, 0, 0, 0, 0, 0, 0, 8, 8}},
    {"row 4, a byte", ARGUMENT, {4, 0, 0, 0, 0}, AN_INTEGER(1), BARKPADDLE_WAY_DIRECT, {0, 0, 0, 0, 0, 0, 0, 8, 8}},
    {"row 5, the second half", ARGUMENT, {5, 1, 8, 0, 8}, AN_INTEGER(16), BARKPADDLE_WAY_DIRECT, {0, 8, 0, 1, 0, 0, 16, 8, 24}},
    {"row 6, a return", RETURN, {6, 0, 0, 0, 0}, A_RECORD(12, 4), BARKPADDLE_WAY_REFERENCE, {0, 0, 0, 0, 0, 0, 0, 4, 4}},
    {"row 6, a byte", ARGUMENT, {6, 0, 0, 0, 4}, AN_INTEGER(1), BARKPADDLE_WAY_DIRECT, {0, 0, 0, 0, 0, 0, 4, 4, 8}},
    {"row 6, a Double", ARGUMENT, {6, 0, 0, 0, 8}, A_SCALAR(2, 8, 8), BARKPADDLE_WAY_DIRECT, {0, 0, 0, 0, 0, 0, 8, 8, 16}},
    {"row 9, X87 of 12", ARGUMENT, {9, 2, 0, 0, 0}, A_SCALAR(3, 12, 4), BARKPADDLE_WAY_DIRECT, {0, 0, 0, 2, 0, 0, 0, 4, 4}},
    {"row 9, 8 bytes", ARGUMENT, {9, 1, 0, 0, 0}, AN_INTEGER(8), BARKPADDLE_WAY_DIRECT, {1, 0, 0, 0, 0, 0, 0, 8, 8}},
    {"row 9, a record of 8", ARGUMENT, {9, 1, 0, 0, 0}, A_RECORD(8, 4), BARKPADDLE_WAY_MEMORY, {0, 0, 1, 0, 0, 0, 0, 8, 8}},
    {"row 22, 8 bytes", ARGUMENT, {22, 2, 0, 0, 0}, AN_INTEGER(8), BARKPADDLE_WAY_DIRECT, {0, 0, 2, 0, 0, 0, 0, 8, 8}},
    {"row 22, a record of 6", ARGUMENT, {22, 2, 0, 0, 0}, A_RECORD(6, 4), BARKPADDLE_WAY_MEMORY, {0, 0, 2, 0, 0, 0, 0, 8, 8}},
    /* a scalar without bytes, with a register and without */
    {"no bytes, no register", ARGUMENT, {0, 0, 8, 0, 3}, AN_INTEGER(0), BARKPADDLE_WAY_DIRECT, {0, 8, 0, 0, 0, 0, 0, 0, 3}},
    {"no bytes in a register", ARGUMENT, {0, 1, 8, 0, 3}, AN_INTEGER(0), BARKPADDLE_WAY_DIRECT, {0, 8, 0, 1, 0, 0, 0, 0, 3}},
    /* an odd offset: it stays where all is in registers */
    {"odd, in a register", ARGUMENT, {0, 6, 8, 0, 3}, AN_INTEGER(8), BARKPADDLE_WAY_DIRECT, {5, 8, 0, 1, 0, 0, 0, 0, 3}},
    {"odd, a Double in one", ARGUMENT, {0, 6, 8, 0, 3}, A_SCALAR(2, 8, 8), BARKPADDLE_WAY_DIRECT, {6, 7, 0, 0, 0, 1, 0, 0, 3}},
    {"odd, on the stack", ARGUMENT, {0, 0, 8, 0, 3}, AN_INTEGER(8), BARKPADDLE_WAY_DIRECT, {0, 8, 0, 0, 0, 0, 8, 8, 16}},
    {"odd, a byte on row 2", ARGUMENT, {2, 0, 8, 0, 3}, AN_INTEGER(1), BARKPADDLE_WAY_DIRECT, {0, 8, 0, 0, 0, 0, 3, 1, 4}},
    {"odd, an empty record", ARGUMENT, {0, 6, 8, 0, 3}, A_RECORD(0, 1), BARKPADDLE_WAY_IGNORE, {6, 8, 0, 0, 0, 0, 0, 0, 3}},
    {"odd, void", ARGUMENT, {0, 6, 8, 0, 3}, {VOID, 0, 0, 0, 0, 0, NULL, 0}, BARKPADDLE_WAY_IGNORE, {6, 8, 0, 0, 0, 0, 0, 0, 3}},
    {"odd, a return", RETURN, {0, 0, 8, 0, 3}, AN_INTEGER(8), BARKPADDLE_WAY_DIRECT, {0, 8, 0, 0, 0, 0, 0, 0, 3}},
    /* alignments of records: less than a word counts as one where arguments aren't packed, and what is no power of two as it is */
    {"aligned to 0", ARGUMENT, {0, 6, 8, 0, 3}, A_RECORD(24, 0), BARKPADDLE_WAY_MEMORY, {6, 8, 0, 0, 0, 0, 8, 24, 32}},
    {"aligned to 12", ARGUMENT, {0, 6, 8, 0, 8}, A_RECORD(24, 12), BARKPADDLE_WAY_MEMORY, {6, 8, 0, 0, 0, 0, 12, 24, 36}},
    {"aligned to 16", ARGUMENT, {0, 6, 8, 0, 8}, A_RECORD(24, 16), BARKPADDLE_WAY_MEMORY, {6, 8, 0, 0, 0, 0, 16, 24, 40}},
    {"aligned to 32", ARGUMENT, {0, 6, 8, 0, 8}, A_RECORD(24, 32), BARKPADDLE_WAY_MEMORY, {6, 8, 0, 0, 0, 0, 32, 24, 56}},
    {"aligned to 4,096", ARGUMENT, {0, 6, 8, 0, 8}, A_RECORD(24, 4096), BARKPADDLE_WAY_MEMORY, {6, 8, 0, 0, 0, 0, 4096, 24, 4120}},
    {"packed, aligned to 0", ARGUMENT, {2, 8, 0, 0, 3}, A_RECORD_OF(12, 0, three_singles), BARKPADDLE_WAY_MEMORY,
     {8, 0, 0, 0, 0, 0, 3, 12, 15}},
    {"packed, aligned to 32", ARGUMENT, {2, 0, 8, 0, 3}, A_RECORD(3, 32), BARKPADDLE_WAY_MEMORY, {0, 8, 0, 0, 0, 0, 32, 3, 35}},
    /* of scalars only 16 counts, on packed rows too */
    {"scalar aligned to 0", ARGUMENT, {0, 0, 8, 0, 3}, A_SCALAR(0, 8, 0), BARKPADDLE_WAY_DIRECT, {0, 8, 0, 0, 0, 0, 8, 8, 16}},
    {"scalar aligned to 16", ARGUMENT, {0, 0, 8, 0, 8}, A_SCALAR(0, 8, 16), BARKPADDLE_WAY_DIRECT, {0, 8, 0, 0, 0, 0, 16, 8, 24}},
    {"scalar aligned to 32", ARGUMENT, {0, 0, 8, 0, 8}, A_SCALAR(0, 8, 32), BARKPADDLE_WAY_DIRECT, {0, 8, 0, 0, 0, 0, 8, 8, 16}},
    {"scalar aligned to 4,096", ARGUMENT, {0, 0, 8, 0, 8}, A_SCALAR(0, 8, 4096), BARKPADDLE_WAY_DIRECT, {0, 8, 0, 0, 0, 0, 8, 8, 16}},
    {"packed scalar aligned to 0", ARGUMENT, {2, 0, 8, 0, 3}, A_SCALAR(0, 4, 0), BARKPADDLE_WAY_DIRECT, {0, 8, 0, 0, 0, 0, 4, 4, 8}},
    {"packed scalar aligned to 16", ARGUMENT, {2, 0, 8, 0, 4}, A_SCALAR(0, 4, 16), BARKPADDLE_WAY_DIRECT, {0, 8, 0, 0, 0, 0, 16, 4, 20}},
    {"packed scalar aligned to 32", ARGUMENT, {2, 0, 8, 0, 4}, A_SCALAR(0, 4, 32), BARKPADDLE_WAY_DIRECT, {0, 8, 0, 0, 0, 0, 4, 4, 8}},
    /* a size that is no power of two */
    {"packed, size 12, after the dots", VARIADIC_ARGUMENT, {2, 8, 8, 0, 8}, A_SCALAR(0, 12, 4), BARKPADDLE_WAY_DIRECT,
     {8, 8, 0, 0, 0, 0, 12, 16, 28}}};

/* Where what isn't in registers stands (REFERENCE 9.9), case by case; last the two that have slots. */
static void stacked_values(void)
{
    static const uint64_t half[NUMBERS] = {0, 8, 0, 1, 0, 0, 16, 8, 24}, halves[] = {0, 0, 8, 0, 8, 8};
    static const uint64_t word[NUMBERS] = {0, 0, 0, 0, 0, 0, 0, 8, 8}, slot[] = {0, 0, 8};
    size_t i;

    for (i = 0; i < COUNT(on_the_stack); i++) {
        const placed *p = &on_the_stack[i];

        BARE(p->place, p->operation, p->c, p->v, p->way, p->numbers);
    }
    LINE("row 3, marked", ARGUMENT, further_on(call_of(3, 1, 8, 1), 8), scalar(4, 16, 16), BARKPADDLE_WAY_PIECES, half, halves);
    LINE("row 4, size 8", ARGUMENT, call_of(4, 0, 0, 0), aggregate(8, 8, NULL, 0), BARKPADDLE_WAY_PIECES, word, slot);
}

static const uint64_t past_offsets[] = {BARKPADDLE_MOST_STACK + 1, UINT64_MAX};

/* A call whose offset is past the limit is refused so, whatever else is asked of it; one at the limit isn't, as long as nothing goes to the
 * stack. */
static void offsets_of(enum operation operation)
{
    static const uint64_t all_wrong[] = {5, 65, 4097, 16777217};
    const value bad = aggregate(16777217, 4097, all_wrong, 3);
    uint64_t row;
    size_t i;

    for (row = 0; row < BARKPADDLE_ABI_COUNT; row++) {
        barkpaddle_call whole = barkpaddle_fresh(row).next;
        barkpaddle_call last = further_on(whole, BARKPADDLE_MOST_STACK);
        barkpaddle_call spent = further_on(call_of(row, 0, 0, 0), BARKPADDLE_MOST_STACK);
        const uint64_t as_it_was[NUMBERS] = {whole.integer, whole.float_, 0, 0, 0, 0, 0, 0, BARKPADDLE_MOST_STACK};

        for (i = 0; i < COUNT(past_offsets); i++) {
            barkpaddle_call past = further_on(whole, past_offsets[i]);

            check_refused("past the limit, void", operation, past, nothing, ROOM, BARKPADDLE_BAD_CALL);
            check_refused("past the limit, scalar", operation, past, scalar(0, 8, 8), ROOM, BARKPADDLE_BAD_CALL);
            check_refused("past the limit, bad scalar", operation, past, scalar(5, 65, 4097), ROOM, BARKPADDLE_BAD_CALL);
            check_refused("past the limit, aggregate", operation, past, aggregate(8, 8, NULL, 0), ROOM, BARKPADDLE_BAD_CALL);
            check_refused("past the limit, bad aggregate", operation, past, bad, 0, BARKPADDLE_BAD_CALL);
            check_refused(
                "past all limits", operation, further_on(call_of(row, 99, 99, 0), past_offsets[i]), bad, ROOM, BARKPADDLE_BAD_CALL);
            check_form_refused(operation, past, BARKPADDLE_FORM_VOID, BARKPADDLE_BAD_CALL);
        }
        BARE("at the limit, void", operation, last, nothing, BARKPADDLE_WAY_IGNORE, as_it_was);
        check_refused("at the limit, bad scalar", operation, spent, scalar(5, 65, 4097), 0, BARKPADDLE_BAD_KIND);
        check_refused("at the limit, bad aggregate", operation, spent, bad, 0, BARKPADDLE_BAD_LIST);
        if (operation == RETURN)
            continue;
        check_refused("at the limit, a word", operation, spent, scalar(0, 4, 4), ROOM, BARKPADDLE_NO_ROOM);
        check_refused("at the limit, a record", operation, spent, aggregate(100, 4, NULL, 0), ROOM, BARKPADDLE_NO_ROOM);
        check_refused("at the limit, a small one", operation, spent, aggregate(8, 8, NULL, 0), ROOM, BARKPADDLE_NO_ROOM);
    }
    for (i = 0; i < COUNT(no_row); i++)
        check_refused(
            "no row, past the limit", operation, further_on(call_of(no_row[i], 0, 0, 0), UINT64_MAX), bad, ROOM, BARKPADDLE_BAD_ABI);
}

/* The mark and in_memory, which put nothing there, check the offset all the same. */
static void offsets_beside_operations(void)
{
    uint64_t row;
    size_t i;

    for (row = 0; row < BARKPADDLE_ABI_COUNT; row++) {
        barkpaddle_call last = further_on(barkpaddle_fresh(row).next, BARKPADDLE_MOST_STACK);
        barkpaddle_call marked = last;

        marked.integers_only = row == BARKPADDLE_ABI_WINDOWS_ARM64;
        check_answer("at the limit, the mark", mark(last), BARKPADDLE_ACCEPTED, 0, marked, no_spending, 0);
        check_told("at the limit, in_memory", barkpaddle_in_memory(HANDED(last), 100, 16, 0, 0, NULL, 0), BARKPADDLE_ACCEPTED, 16);
        for (i = 0; i < COUNT(past_offsets); i++) {
            barkpaddle_call past = further_on(last, past_offsets[i]);

            check_answer("past the limit, the mark", mark(past), BARKPADDLE_BAD_CALL, 0, past, no_spending, 0);
            check_told("past the limit, in_memory", barkpaddle_in_memory(HANDED(past), 100, 16, 0, 0, NULL, 0), BARKPADDLE_BAD_CALL, 0);
            check_told(
                "past the limit, a bad shape", barkpaddle_in_memory(HANDED(past), 16777217, 4097, 0, 0, NULL, 3), BARKPADDLE_BAD_CALL, 0);
        }
    }
    for (i = 0; i < COUNT(no_row); i++) {
        barkpaddle_call none = further_on(call_of(no_row[i], 0, 0, 0), UINT64_MAX);

        check_answer("no row, past the limit, the mark", mark(none), BARKPADDLE_BAD_ABI, 0, none, no_spending, 0);
        check_told("no row, past the limit", barkpaddle_in_memory(HANDED(none), 100, 16, 0, 0, NULL, 0), BARKPADDLE_BAD_ABI, 0);
    }
}

/* What would end past the limit has no room there, and nothing is written, though there may be room for its slots. */
static void end_of_the_stack(void)
{
    const uint64_t last = BARKPADDLE_MOST_STACK - 1, last_word = BARKPADDLE_MOST_STACK - 8;
    const uint64_t byte_there[NUMBERS] = {0, 8, 0, 0, 0, 0, last, 1, BARKPADDLE_MOST_STACK};
    const uint64_t word_there[NUMBERS] = {0, 8, 0, 0, 0, 0, last_word, 8, BARKPADDLE_MOST_STACK};
    const uint64_t slot_there[NUMBERS] = {0, 0, 0, 0, 0, 0, last_word, 8, BARKPADDLE_MOST_STACK}, slot[] = {0, 0, 8};
    const barkpaddle_call row_0 = call_of(0, 0, 8, 0), row_2 = call_of(2, 0, 8, 0), row_4 = call_of(4, 0, 0, 0);
    const value eight = aggregate(8, 8, NULL, 0);

    BARE("the last byte, row 2", ARGUMENT, further_on(row_2, last), scalar(0, 1, 1), BARKPADDLE_WAY_DIRECT, byte_there);
    check_refused("two bytes, row 2", ARGUMENT, further_on(row_2, last), scalar(0, 2, 2), ROOM, BARKPADDLE_NO_ROOM);
    check_refused("after the dots, row 2", VARIADIC_ARGUMENT, further_on(row_2, last), scalar(0, 1, 1), ROOM, BARKPADDLE_NO_ROOM);
    check_refused("the last byte, row 0", ARGUMENT, further_on(row_0, last), scalar(0, 1, 1), ROOM, BARKPADDLE_NO_ROOM);
    BARE("the last word, row 0", ARGUMENT, further_on(row_0, last_word), scalar(0, 1, 1), BARKPADDLE_WAY_DIRECT, word_there);
    BARE("the last address, row 0", RETURN, further_on(row_0, last_word), aggregate(24, 8, NULL, 0), BARKPADDLE_WAY_REFERENCE, word_there);
    check_refused("an address, row 0", RETURN, further_on(row_0, last), aggregate(24, 8, NULL, 0), ROOM, BARKPADDLE_NO_ROOM);
    /* rounded up it would start past the limit */
    check_refused("aligned to 4,096", ARGUMENT, further_on(row_0, last_word), aggregate(24, 4096, NULL, 0), ROOM, BARKPADDLE_NO_ROOM);
    check_refused(
        "the largest", ARGUMENT, further_on(row_0, BARKPADDLE_MOST_STACK - 16777215), aggregate(16777216, 1, NULL, 0), ROOM,
        BARKPADDLE_NO_ROOM);

    /* there is room for the slot, and none on the stack; and the other way round */
    check_refused("a slot, row 4", ARGUMENT, further_on(row_4, BARKPADDLE_MOST_STACK), eight, ROOM, BARKPADDLE_NO_ROOM);
    check_refused("a slot, row 4", ARGUMENT, further_on(row_4, BARKPADDLE_MOST_STACK), eight, BARKPADDLE_SLOT_WORDS, BARKPADDLE_NO_ROOM);
    check_refused("no slot, row 4", ARGUMENT, further_on(row_4, BARKPADDLE_MOST_STACK), eight, 2, BARKPADDLE_NO_ROOM);
    LINE("the last slot, row 4", ARGUMENT, further_on(row_4, last_word), eight, BARKPADDLE_WAY_PIECES, slot_there, slot);
}

/* As many of the largest records as the stack has room for, on a lent call: one behind the other, to the limit. */
static void the_whole_stack(void)
{
    const barkpaddle_what most = what_of(aggregate(BARKPADDLE_LARGEST_SHAPE, 8, NULL, 0)), one = what_of(aggregate(1, 1, NULL, 0));
    const uint64_t records = BARKPADDLE_MOST_STACK / BARKPADDLE_LARGEST_SHAPE;
    barkpaddle_call kept = barkpaddle_fresh(BARKPADDLE_ABI_SYSV_AMD64).next;
    uint64_t n;

    check_number("the whole stack", "records", 65536, records);
    for (n = 0; n < records; n++) {
        barkpaddle_outcome outcome = barkpaddle_bridge_argument(&kept, most, NULL, 0, NULL, 0);

        check_number("the whole stack", "refusal", BARKPADDLE_ACCEPTED, outcome.refusal);
        check_number("the whole stack", "stack_at", BARKPADDLE_LARGEST_SHAPE * n, outcome.stack_at);
        check_number("the whole stack", "stack_bytes", BARKPADDLE_LARGEST_SHAPE, outcome.stack_bytes);
    }
    check_call("the whole stack", further_on(call_of(0, 6, 8, 0), BARKPADDLE_MOST_STACK), kept);
    check_refused("a record more", ARGUMENT, kept, aggregate(17, 1, NULL, 0), ROOM, BARKPADDLE_NO_ROOM);
    check_number("void behind it", "refusal", 0, barkpaddle_bridge_argument(&kept, what_of(nothing), NULL, 0, NULL, 0).refusal);
    check_number("in a register", "refusal", 0, barkpaddle_bridge_argument(&kept, one, NULL, 0, lent, ROOM).refusal);
    check_call("behind it all", further_on(call_of(0, 5, 8, 0), BARKPADDLE_MOST_STACK), kept);
}

static void the_stack(void)
{
    stacked_values();
    offsets_of(RETURN);
    offsets_of(ARGUMENT);
    offsets_of(VARIADIC_ARGUMENT);
    offsets_beside_operations();
    end_of_the_stack();
    the_whole_stack();
}

/* ---- records ---- */

static void check_record(const char *place, barkpaddle_record_shape r, uint64_t refusal, uint64_t size, uint64_t align, uint64_t floating)
{
    check_number(place, "refusal", refusal, r.refusal);
    check_number(place, "size", size, r.size);
    check_number(place, "align", align, r.align);
    check_number(place, "complex_", 0, r.complex_);
    check_number(place, "floating", floating, r.floating);
}

static void records(void)
{
    /* a byte, a Double, nothing at all, a byte, a word without alignment */
    static const uint64_t members[] = {0, 1, 1, 2, 8, 8, 0, 0, 4, 0, 1, 1, 0, 4, 0};
    static const uint64_t placed[] = {0, 1, 1, 0, 2, 8, 8, 8, 0, 0, 4, 16, 0, 1, 1, 16, 0, 4, 0, 17};
    static const uint64_t wrong[][3] = {{5, 65, 4097}, {4, 65, 4097}, {4, 64, 4097}};
    static const uint64_t refusals[] = {BARKPADDLE_BAD_KIND, BARKPADDLE_BAD_SIZE, BARKPADDLE_BAD_ALIGN};
    static const uint64_t lone_double[] = {2, 8, 8, 0}, wide_double[] = {2, 8, 16, 0}, late_double[] = {2, 8, 8, 8};
    static const uint64_t no_align[] = {0, 1, 0, 0, 0, 1, 0, 8};
    static const uint64_t no_size[] = {0, 0, 1, 5};
    static const uint64_t at_limit[] = {0, 0, 1, 16777215}, past_limit[] = {0, 0, 1, 16777216}, rounded[] = {0, 1, 4096, 16777216};
    static const uint64_t bad_kind[] = {5, 65, 4097, 16777217}, bad_size[] = {4, 65, 4097, 16777217};
    static const uint64_t bad_offset[] = {4, 64, 4097, 16777217}, bad_align[] = {4, 64, 4097, 16777216};
    uint64_t length;
    uint64_t n;
    barkpaddle_told told;

    for (length = 0; length <= ROOM; length++) {
        fill();
        told = barkpaddle_pieces(members, 15, length == 0 ? NULL : lent, length);
        if (length / BARKPADDLE_PIECE_WORDS < 5) {
            check_told("pieces, no room", told, BARKPADDLE_NO_ROOM, 0);
            check_lent("pieces, no room", NULL, 0);
        } else {
            check_told("pieces", told, BARKPADDLE_ACCEPTED, 5);
            check_lent("pieces", placed, 20);
        }
    }
    fill();
    check_told("no members", barkpaddle_pieces(NULL, 0, NULL, 0), 0, 0);
    check_told("no members", barkpaddle_pieces(NULL, 0, lent, ROOM), 0, 0);
    for (n = 0; n < 3; n++) {
        check_told("pieces, a member", barkpaddle_pieces(wrong[n], 3, lent, 0), refusals[n], 0);
        check_told("pieces, a member", barkpaddle_pieces(wrong[n], 3, lent, ROOM), refusals[n], 0);
        check_told("pieces, parts", barkpaddle_pieces(wrong[0], 1 + n % 2, lent, ROOM), BARKPADDLE_BAD_LIST, 0);
    }
    check_told("pieces, many", barkpaddle_pieces(many_words, 3 * 1025, lent, ROOM), BARKPADDLE_BAD_LIST, 0);
    check_lent("pieces, refused", NULL, 0);

    check_record("no pieces", barkpaddle_record(NULL, 0), 0, 0, 1, 0);
    check_record("an integer and a Double", barkpaddle_record(int8_double, 8), 0, 16, 8, 0);
    check_record("five Singles", barkpaddle_record(singles, 20), 0, 20, 4, 0);
    check_record("a lone Double", barkpaddle_record(lone_double, 4), 0, 8, 8, 1);
    check_record("a wide Double", barkpaddle_record(wide_double, 4), 0, 16, 16, 0);
    check_record("a late Double", barkpaddle_record(late_double, 4), 0, 16, 8, 0);
    check_record("no size", barkpaddle_record(no_size, 4), 0, 6, 1, 0);
    check_record("at the limit", barkpaddle_record(at_limit, 4), 0, 16777216, 1, 0);
    check_record("past the limit", barkpaddle_record(past_limit, 4), BARKPADDLE_BAD_SIZE, 0, 0, 0);
    check_record("rounded past the limit", barkpaddle_record(rounded, 4), BARKPADDLE_BAD_SIZE, 0, 0, 0);
    check_record("no alignment", barkpaddle_record(no_align, 8), BARKPADDLE_BAD_ALIGN, 0, 0, 0);
    check_record("parts", barkpaddle_record(bad_kind, 3), BARKPADDLE_BAD_LIST, 0, 0, 0);
    check_record("many", barkpaddle_record(many_words, 4 * 1025), BARKPADDLE_BAD_LIST, 0, 0, 0);
    check_record("most", barkpaddle_record(many_words, 4 * 1024), 0, 8, 8, 0);
    check_record("kind", barkpaddle_record(bad_kind, 4), BARKPADDLE_BAD_KIND, 0, 0, 0);
    check_record("size", barkpaddle_record(bad_size, 4), BARKPADDLE_BAD_SIZE, 0, 0, 0);
    check_record("offset", barkpaddle_record(bad_offset, 4), BARKPADDLE_BAD_SIZE, 0, 0, 0);
    check_record("alignment", barkpaddle_record(bad_align, 4), BARKPADDLE_BAD_ALIGN, 0, 0, 0);
}

/* ---- pieces that end past their shape ---- */

static void show_asked(barkpaddle_call c, value v)
{
    const uint64_t numbers[] = {HANDED(c), v.size, v.align};
    uint64_t i;

    printf("    call, size, alignment, then words of pieces:");
    for (i = 0; i < COUNT(numbers); i++)
        printf(" %llu", (unsigned long long)numbers[i]);
    for (i = 0; i < v.words_length && i < 12; i++)
        printf("%s %llu", i % BARKPADDLE_PIECE_WORDS == 0 ? "," : "", (unsigned long long)v.words[i]);
    printf("\n");
}

/* Not refused, whatever way it travels. */
static void check_accepted(const char *place, enum operation operation, barkpaddle_call c, value v)
{
    barkpaddle_answer a;

    fill();
    a = perform(operation, c, v, lent, ROOM);
    check_number(place, "refusal", BARKPADDLE_ACCEPTED, a.outcome.refusal);
}

/* Each operation about a shape, and in_memory: all refuse it so, or none does. The shapes that are accepted are aligned to 8, so that
 * in_memory answers their own alignment on row 2, too. */
static void check_asked(const char *place, barkpaddle_call c, value v, uint64_t refusal)
{
    static const enum operation operations[] = {RETURN, ARGUMENT, VARIADIC_ARGUMENT};
    unsigned long failed_before = failed;
    size_t i;

    for (i = 0; i < COUNT(operations); i++)
        if (refusal == BARKPADDLE_ACCEPTED)
            check_accepted(place, operations[i], c, v);
        else
            check_refused(place, operations[i], c, v, ROOM, refusal);
    check_told(
        place,
        barkpaddle_in_memory(HANDED(c), v.size, v.align, v.complex_, v.floating, v.words, v.words_length),
        refusal, refusal == BARKPADDLE_ACCEPTED ? v.align : 0);
    if (failed > failed_before && failed <= 40)
        show_asked(c, v);
}

/* The same on every row: on a whole call, and on one that has no registers left, an odd offset, and a mark, which isn't 1, where the row
 * has it. */
static void check_everywhere(const char *place, value v, uint64_t refusal)
{
    uint64_t row;

    for (row = 0; row < BARKPADDLE_ABI_COUNT; row++) {
        check_asked(place, barkpaddle_fresh(row).next, v, refusal);
        check_asked(place, further_on(call_of(row, 0, 0, row == BARKPADDLE_ABI_WINDOWS_ARM64 ? 2 : 0), 3), v, refusal);
    }
}

/* A record has no size but what its pieces make, so that none can be past it: its refusals are its own (REFERENCE 4.3). */
static void check_record_of(const uint64_t piece[4])
{
    uint64_t size = piece[BARKPADDLE_PIECE_SIZE];
    uint64_t end = piece[BARKPADDLE_PIECE_OFFSET] + (size == 0 ? 1 : size);

    if (end > BARKPADDLE_LARGEST_SHAPE)
        check_record("a piece past the limit", barkpaddle_record(piece, 4), BARKPADDLE_BAD_SIZE, 0, 0, 0);
    else
        check_record(
            "a piece past a shape", barkpaddle_record(piece, 4), BARKPADDLE_ACCEPTED, end, 1,
            piece[BARKPADDLE_PIECE_KIND] != BARKPADDLE_KIND_INTEGER && size == end);
}

/* A shape's size, a piece's size and its offset, and what that is refused for. A size of 0 counts as 0 in the sum. */
static const struct ending {
    uint64_t shape, size, offset, refusal;
} endings[] = {
    /* at the shape's size, and one, 63 and 64 above it */
    {8, 8, 0, BARKPADDLE_ACCEPTED},
    {8, 1, 7, BARKPADDLE_ACCEPTED},
    {8, 8, 1, BARKPADDLE_BAD_EXTENT},
    {8, 1, 8, BARKPADDLE_BAD_EXTENT},
    {8, 64, 7, BARKPADDLE_BAD_EXTENT},
    {8, 64, 8, BARKPADDLE_BAD_EXTENT},
    {64, 64, 0, BARKPADDLE_ACCEPTED},
    {63, 64, 0, BARKPADDLE_BAD_EXTENT},
    {1, 64, 0, BARKPADDLE_BAD_EXTENT},
    /* nothing at the shape's size, and one behind it */
    {8, 0, 8, BARKPADDLE_ACCEPTED},
    {8, 0, 9, BARKPADDLE_BAD_EXTENT},
    {0, 0, 0, BARKPADDLE_ACCEPTED},
    {0, 0, 1, BARKPADDLE_BAD_EXTENT},
    {0, 1, 0, BARKPADDLE_BAD_EXTENT},
    /* at the limits */
    {16777216, 0, 16777216, BARKPADDLE_ACCEPTED},
    {16777216, 1, 16777216, BARKPADDLE_BAD_EXTENT},
    {16777216, 64, 16777216, BARKPADDLE_BAD_EXTENT},
    {16777216, 1, 16777215, BARKPADDLE_ACCEPTED},
    {16777216, 64, 16777152, BARKPADDLE_ACCEPTED},
    {16777216, 64, 16777153, BARKPADDLE_BAD_EXTENT},
    {16777215, 0, 16777216, BARKPADDLE_BAD_EXTENT},
    {0, 64, 16777216, BARKPADDLE_BAD_EXTENT}};

/* A piece by itself, of every kind, in a shape with both marks and with none: where it ends has nothing to do with these. */
static void one_piece(void)
{
    uint64_t kind;
    size_t i;

    for (i = 0; i < COUNT(endings); i++)
        for (kind = 0; kind < 5; kind++) {
            const uint64_t piece[4] = {kind, endings[i].size, 1, endings[i].offset};
            value v = aggregate(endings[i].shape, 8, piece, 4);

            check_everywhere("where a piece ends", v, endings[i].refusal);
            v.complex_ = v.floating = 2;
            check_everywhere("where a marked shape's piece ends", v, endings[i].refusal);
            check_record_of(piece);
        }
}

/* All that is near a small shape's end. */
static void every_small_sum(void)
{
    static const uint64_t piece_sizes[] = {0, 1, 2, 4, 8};
    uint64_t shape, offset;
    size_t i;

    for (shape = 0; shape <= 9; shape++)
        for (offset = 0; offset <= 10; offset++)
            for (i = 0; i < COUNT(piece_sizes); i++) {
                const uint64_t piece[4] = {BARKPADDLE_KIND_INTEGER, piece_sizes[i], 1, offset};

                check_everywhere(
                    "a small sum", aggregate(shape, 8, piece, 4),
                    offset + piece_sizes[i] > shape ? BARKPADDLE_BAD_EXTENT : BARKPADDLE_ACCEPTED);
            }
}

/* The first of three, only the middle one, the last. */
static void one_of_three(void)
{
    uint64_t three[] = {0, 8, 8, 0, 2, 8, 8, 8, 0, 8, 8, 16};
    size_t i;

    check_everywhere("three inside", aggregate(24, 8, three, COUNT(three)), BARKPADDLE_ACCEPTED);
    for (i = 0; i < 3; i++) {
        uint64_t *offset = &three[BARKPADDLE_PIECE_WORDS * i + BARKPADDLE_PIECE_OFFSET];

        *offset = 16;
        check_everywhere("one of three at the end", aggregate(24, 8, three, COUNT(three)), BARKPADDLE_ACCEPTED);
        *offset = 17;
        check_everywhere("one of three past", aggregate(24, 8, three, COUNT(three)), BARKPADDLE_BAD_EXTENT);
        check_record("one of three late", barkpaddle_record(three, COUNT(three)), BARKPADDLE_ACCEPTED, 32, 8, 0);
        *offset = 8 * i;
    }
}

/* As many pieces as there may be: those of refusals_of, which have 8 bytes at 0, but for one at 1, the first, one in the middle, the last.
 * One piece more is BAD_LIST. */
static void one_of_most(void)
{
    static const size_t places[] = {0, 511, 1023};
    size_t i;

    check_everywhere("1,024 inside", aggregate(8, 8, many_words, 4096), BARKPADDLE_ACCEPTED);
    for (i = 0; i < COUNT(places); i++) {
        uint64_t *offset = &many_words[BARKPADDLE_PIECE_WORDS * places[i] + BARKPADDLE_PIECE_OFFSET];

        *offset = 1;
        check_everywhere("one of 1,024 past", aggregate(8, 8, many_words, 4096), BARKPADDLE_BAD_EXTENT);
        check_everywhere("one of 1,024 at the end", aggregate(9, 8, many_words, 4096), BARKPADDLE_ACCEPTED);
        check_everywhere("one of 1,025 past", aggregate(8, 8, many_words, 4100), BARKPADDLE_BAD_LIST);
        check_record("one of 1,024 late", barkpaddle_record(many_words, 4096), BARKPADDLE_ACCEPTED, 16, 8, 0);
        *offset = 0;
    }
}

/* What is wrong with the call goes before a piece past. */
static void calls_before_extents(void)
{
    static const uint64_t past[] = {0, 8, 8, 1};
    const value v = aggregate(8, 8, past, 4);
    uint64_t i;

    for (i = 0; i < COUNT(no_row); i++)
        check_asked("no row, a piece past", further_on(call_of(no_row[i], 0, 0, 0), UINT64_MAX), v, BARKPADDLE_BAD_ABI);
    for (i = 0; i < BARKPADDLE_ABI_COUNT; i++) {
        barkpaddle_call start = barkpaddle_fresh(i).next;

        check_asked("integers, a piece past", call_of(i, start.integer + 1, start.float_, 0), v, BARKPADDLE_BAD_CALL);
        check_asked("floats, a piece past", call_of(i, start.integer, start.float_ + 1, 0), v, BARKPADDLE_BAD_CALL);
        check_asked("an offset, a piece past", further_on(start, BARKPADDLE_MOST_STACK + 1), v, BARKPADDLE_BAD_CALL);
        if (i != BARKPADDLE_ABI_WINDOWS_ARM64)
            check_asked("a mark, a piece past", call_of(i, start.integer, start.float_, 1), v, BARKPADDLE_BAD_CALL);
    }
}

/* So does what is wrong with the list or with the shape itself. */
static void shapes_before_extents(void)
{
    /* a piece that ends past every size that is accepted, and past the first that isn't; and a part of another */
    static const uint64_t past[] = {0, 64, 8, 16777216, 0, 8, 8};
    uint64_t n;

    for (n = 5; n <= COUNT(past); n++)
        check_everywhere("parts, a piece past", aggregate(8, 8, past, n), BARKPADDLE_BAD_LIST);
    check_everywhere("the shape's size, a piece past", aggregate(16777217, 8, past, 4), BARKPADDLE_BAD_SIZE);
    check_everywhere("the shape's alignment, a piece past", aggregate(8, 4097, past, 4), BARKPADDLE_BAD_ALIGN);
}

/* And what is wrong with any piece, be it before the one that is past or behind it. */
static void pieces_before_extents(void)
{
    static const uint64_t past[] = {0, 8, 8, 93}, past_nothing[] = {0, 8, 8, 0, 5, 8, 8, 0};
    /* two would end inside, if their sums might wrap */
    static const uint64_t bad[][4] = {
        {5, 8, 8, 0}, {0, 65, 8, 0}, {0, UINT64_MAX - 7, 8, 8}, {0, 8, 8, 16777217}, {0, 8, 8, UINT64_MAX - 7}, {0, 8, 4097, 0}};
    static const uint64_t refusals[] = {BARKPADDLE_BAD_KIND, BARKPADDLE_BAD_SIZE, BARKPADDLE_BAD_SIZE,
                                        BARKPADDLE_BAD_SIZE, BARKPADDLE_BAD_SIZE, BARKPADDLE_BAD_ALIGN};
    uint64_t two[8];
    size_t i;

    for (i = 0; i < COUNT(bad); i++) {
        memcpy(two, past, sizeof past);
        memcpy(two + 4, bad[i], sizeof bad[i]);
        check_everywhere("a piece past, then a bad one", aggregate(100, 8, two, 8), refusals[i]);
        memcpy(two, bad[i], sizeof bad[i]);
        memcpy(two + 4, past, sizeof past);
        check_everywhere("a bad piece, then one past", aggregate(100, 8, two, 8), refusals[i]);
    }
    check_everywhere("an empty shape, a piece past, a kind", aggregate(0, 8, past_nothing, 8), BARKPADDLE_BAD_KIND);
}

/* In a buffer of any length a piece past is BAD_EXTENT; one that is too small is NO_ROOM only where all pieces are inside. */
static void extents_before_room(void)
{
    static const uint64_t past[] = {0, 8, 8, 0, 2, 8, 8, 9};
    static const uint64_t two_slots[] = {0, 0, 8, 2, 8, 0}, two_words[] = {0, 0, 8, 0, 8, 8};
    static const uint64_t whole_0[NUMBERS] = {6, 8, 0, 0, 0, 0}, given_0[NUMBERS] = {5, 7, 0, 1, 0, 1};
    static const uint64_t whole_1[NUMBERS] = {8, 8, 0, 0, 0, 0}, given_1[NUMBERS] = {6, 8, 0, 2, 0, 0};
    const value inside = aggregate(16, 8, int8_double, COUNT(int8_double)), outside = aggregate(16, 8, past, COUNT(past));
    uint64_t row, length;

    LINE("inside, row 0", RETURN, call_of(0, 6, 8, 0), inside, BARKPADDLE_WAY_PIECES, whole_0, two_slots);
    LINE("inside, row 0", ARGUMENT, call_of(0, 6, 8, 0), inside, BARKPADDLE_WAY_PIECES, given_0, two_slots);
    LINE("inside, row 0", VARIADIC_ARGUMENT, call_of(0, 6, 8, 0), inside, BARKPADDLE_WAY_PIECES, given_0, two_slots);
    LINE("inside, row 1", RETURN, call_of(1, 8, 8, 0), inside, BARKPADDLE_WAY_PIECES, whole_1, two_words);
    LINE("inside, row 1", ARGUMENT, call_of(1, 8, 8, 0), inside, BARKPADDLE_WAY_PIECES, given_1, two_words);
    LINE("inside, row 1", VARIADIC_ARGUMENT, call_of(1, 8, 8, 0), inside, BARKPADDLE_WAY_PIECES, given_1, two_words);
    for (row = 0; row < BARKPADDLE_ABI_COUNT; row++)
        for (length = 0; length <= ROOM; length++) {
            barkpaddle_call c = barkpaddle_fresh(row).next;

            check_refused("past, any room", RETURN, c, outside, length, BARKPADDLE_BAD_EXTENT);
            check_refused("past, any room", ARGUMENT, c, outside, length, BARKPADDLE_BAD_EXTENT);
            check_refused("past, any room", VARIADIC_ARGUMENT, c, outside, length, BARKPADDLE_BAD_EXTENT);
        }
}

/* How shapes travel on row 0 that end with a piece of no bytes: its end is a byte further on (REFERENCE 4.1), so no eightbyte has it. */
static void nothing_at_the_end(void)
{
    static const uint64_t at_8[] = {0, 0, 1, 8}, at_0[] = {0, 0, 1, 0}, at_limit[] = {0, 0, 1, 16777216};
    static const uint64_t whole[NUMBERS] = {6, 8, 0, 0, 0, 0}, pointer[NUMBERS] = {5, 8, 0, 1, 0, 0};
    static const uint64_t eight[NUMBERS] = {6, 8, 0, 0, 0, 0, 0, 8, 8}, most[NUMBERS] = {6, 8, 0, 0, 0, 0, 0, 16777216, 16777216};
    const barkpaddle_call c = call_of(0, 6, 8, 0);

    BARE("nothing at 8 of 8", ARGUMENT, c, aggregate(8, 8, at_8, 4), BARKPADDLE_WAY_MEMORY, eight);
    BARE("nothing at 8 of 8", VARIADIC_ARGUMENT, c, aggregate(8, 8, at_8, 4), BARKPADDLE_WAY_MEMORY, eight);
    BARE("nothing at 8 of 8, back", RETURN, c, aggregate(8, 8, at_8, 4), BARKPADDLE_WAY_REFERENCE, pointer);
    BARE("nothing at 0 of 0", ARGUMENT, c, aggregate(0, 8, at_0, 4), BARKPADDLE_WAY_IGNORE, whole);
    BARE("nothing at 0 of 0", VARIADIC_ARGUMENT, c, aggregate(0, 8, at_0, 4), BARKPADDLE_WAY_IGNORE, whole);
    BARE("nothing at 0 of 0, back", RETURN, c, aggregate(0, 8, at_0, 4), BARKPADDLE_WAY_IGNORE, whole);
    BARE("nothing at the limit", ARGUMENT, c, aggregate(16777216, 8, at_limit, 4), BARKPADDLE_WAY_MEMORY, most);
    BARE("nothing at the limit, back", RETURN, c, aggregate(16777216, 8, at_limit, 4), BARKPADDLE_WAY_REFERENCE, pointer);
}

/* A shape with a piece whose offset and size add up to more than the shape's size: BAD_EXTENT (REFERENCE 3). */
static void ends_past(void)
{
    one_piece();
    every_small_sum();
    one_of_three();
    one_of_most();
    calls_before_extents();
    shapes_before_extents();
    pieces_before_extents();
    extents_before_room();
    nothing_at_the_end();
}

/* ---- descriptions ---- */

static void check_fields(const char *place, uint64_t abi, const uint64_t expected[22])
{
    barkpaddle_description_fields fields = barkpaddle_description(abi);
    uint64_t got[22];
    size_t i;

    memcpy(got, &fields, sizeof got);
    for (i = 0; i < COUNT(got); i++)
        check_number(place, "a field", expected[i], got[i]);
}

static void check_rule(
    const char *place, barkpaddle_rule rule, uint64_t refusal, uint64_t test, uint64_t number, uint64_t travel, uint64_t short_)
{
    check_number(place, "refusal", refusal, rule.refusal);
    check_number(place, "test", test, rule.test);
    check_number(place, "number", number, rule.number);
    check_number(place, "travel", travel, rule.travel);
    check_number(place, "short_", short_, rule.short_);
}

/* Rows 0, 3, 4, 22 and 30 to 32 by REFERENCE 5.5; lines.c has all. */
static void descriptions(void)
{
    static const uint64_t row_0[] = {0, 6, 8, 0, 8, 16, 3, 1, 0, 0, 0, 0, 0, 0, 0, 0, 0, 0, 2, 0, 0, 0};
    static const uint64_t row_3[] = {0, 8, 8, 0, 8, 16, 0, 0, 1, 1, 0, 0, 0, 0, 0, 2, 3, 0, 0, 1, 0, 0};
    static const uint64_t row_4[] = {0, 4, 0, 1, 8, 16, 0, 0, 0, 0, 1, 4, 0, 1, 0, 0, 2, 0, 0, 1, 0, 0};
    static const uint64_t row_22[] = {0, 2, 0, 0, 4, 8, 0, 0, 0, 0, 0, 0, 1, 0, 1, 0, 0, 0, 0, 1, 1, 0};
    static const uint64_t row_30[] = {0, 8, 0, 0, 8, 0, 0, 0, 0, 0, 0, 0, 0, 0, 0, 0, 5, 0, 1, 1, 0, 1};
    static const uint64_t row_31[] = {0, 8, 8, 0, 8, 4, 0, 0, 0, 0, 0, 0, 0, 0, 0, 0, 5, 0, 1, 1, 0, 1};
    static const uint64_t row_32[] = {0, 8, 8, 0, 8, 8, 0, 0, 0, 0, 0, 0, 0, 0, 0, 0, 5, 0, 1, 1, 0, 1};
    static const uint64_t none[] = {1, 0, 0, 0, 0, 0, 0, 0, 0, 0, 0, 0, 0, 0, 0, 0, 0, 0, 0, 0, 0, 0};
    static const uint64_t past_end[] = {4, 5, 255, UINT64_C(1) << 32, UINT64_MAX / 3, UINT64_MAX};
    static const uint64_t sizes[] = {1, 2, 4, 8};
    uint64_t i;
    uint64_t abi;

    check_fields("row 0", 0, row_0);
    check_fields("row 3", 3, row_3);
    check_fields("row 4", 4, row_4);
    check_fields("row 22", 22, row_22);
    check_fields("row 30", 30, row_30);
    check_fields("row 31", 31, row_31);
    check_fields("row 32", 32, row_32);

    check_rule("row 0, return 0", barkpaddle_return_rule(0, 0), 0, BARKPADDLE_TEST_EMPTY, 0, BARKPADDLE_TRAVEL_IGNORE, 0);
    check_rule("row 0, return 1", barkpaddle_return_rule(0, 1), 0, BARKPADDLE_TEST_X87_STACK, 0, BARKPADDLE_TRAVEL_AS_FOUND, 0);
    check_rule("row 0, return 2", barkpaddle_return_rule(0, 2), 0, BARKPADDLE_TEST_EIGHTBYTES, 16, BARKPADDLE_TRAVEL_AS_FOUND, 0);
    check_rule("row 0, return 3", barkpaddle_return_rule(0, 3), 0, BARKPADDLE_TEST_ANYTHING, 0, BARKPADDLE_TRAVEL_BY_REFERENCE, 0);
    check_rule("row 0, argument 0", barkpaddle_argument_rule(0, 0), 0, BARKPADDLE_TEST_EMPTY, 0, BARKPADDLE_TRAVEL_IGNORE, 0);
    check_rule(
        "row 0, argument 1", barkpaddle_argument_rule(0, 1), 0, BARKPADDLE_TEST_EIGHTBYTES, 16, BARKPADDLE_TRAVEL_AS_FOUND,
        BARKPADDLE_SHORT_MEMORY);
    check_rule("row 0, argument 2", barkpaddle_argument_rule(0, 2), 0, BARKPADDLE_TEST_ANYTHING, 0, BARKPADDLE_TRAVEL_IN_MEMORY, 0);
    check_rule("row 0, argument 3", barkpaddle_argument_rule(0, 3), 0, BARKPADDLE_TEST_NO_RULE, 0, 0, 0);
    check_rule(
        "row 5, argument 1", barkpaddle_argument_rule(5, 1), 0, BARKPADDLE_TEST_FLOAT_PAIR, 0, BARKPADDLE_TRAVEL_AS_FOUND,
        BARKPADDLE_SHORT_TRY_NEXT_RULE);
    for (abi = BARKPADDLE_ABI_RISCV_PSABI_LP64; abi <= BARKPADDLE_ABI_RISCV_PSABI_LP64D; abi++)
        check_rule(
            "RISC-V, argument 2", barkpaddle_argument_rule(abi, 2), 0, BARKPADDLE_TEST_SIZE_AT_MOST, 16, BARKPADDLE_TRAVEL_AS_INTEGERS,
            BARKPADDLE_SHORT_SPLIT);
    check_number("row 5, after the dots", "variadic", BARKPADDLE_VARIADIC_UNNAMED_INTEGERS, barkpaddle_description(5).variadic);
    check_number("row 32, after the dots", "variadic", BARKPADDLE_VARIADIC_UNNAMED_INTEGERS_EVEN, barkpaddle_description(32).variadic);
    check_number("row 4, argument 0", "test", BARKPADDLE_TEST_SIZE_ONE_OF, barkpaddle_argument_rule(4, 0).test);
    for (i = 0; i < 4; i++)
        check_number("row 4, argument 0", "a size", sizes[i], BARKPADDLE_TEST_SIZE(barkpaddle_argument_rule(4, 0).number, i));
    for (i = 0; i < COUNT(past_end); i++) {
        check_rule("past the end, return", barkpaddle_return_rule(0, past_end[i]), 0, BARKPADDLE_TEST_NO_RULE, 0, 0, 0);
        check_rule(
            "past the end, argument", barkpaddle_argument_rule(BARKPADDLE_ABI_COUNT - 1, past_end[i]), 0, BARKPADDLE_TEST_NO_RULE, 0, 0, 0);
    }

    check_told("by reference", barkpaddle_scalar_is_by_reference(4, 16), 0, 1);
    check_told("by reference", barkpaddle_scalar_is_by_reference(4, 8), 0, 0);
    check_told("by reference", barkpaddle_scalar_is_by_reference(0, 64), 0, 0);
    check_told("by reference", barkpaddle_scalar_is_by_reference(4, 65), BARKPADDLE_BAD_SIZE, 0);
    check_told("returns by reference", barkpaddle_scalar_returns_by_reference(6, 16), 0, 1);
    check_told("returns by reference", barkpaddle_scalar_returns_by_reference(6, 15), 0, 0);
    check_told("returns by reference", barkpaddle_scalar_returns_by_reference(6, UINT64_MAX), BARKPADDLE_BAD_SIZE, 0);
    check_told("returns in", barkpaddle_wide_integer_returns_in(4, 16), 0, BARKPADDLE_KIND_QUAD);
    check_told("returns in", barkpaddle_wide_integer_returns_in(4, 4), 0, BARKPADDLE_KIND_NO_FORMAT);
    check_told("returns in", barkpaddle_wide_integer_returns_in(4, 65), BARKPADDLE_BAD_SIZE, 0);

    for (i = 0; i < COUNT(no_row); i++) {
        abi = no_row[i];
        check_fields("no row", abi, none);
        check_rule("no row, return", barkpaddle_return_rule(abi, 0), BARKPADDLE_BAD_ABI, 0, 0, 0, 0);
        check_rule("no row, argument", barkpaddle_argument_rule(abi, UINT64_MAX), BARKPADDLE_BAD_ABI, 0, 0, 0, 0);
        check_told("by reference", barkpaddle_scalar_is_by_reference(abi, 65), BARKPADDLE_BAD_ABI, 0);
        check_told("returns by reference", barkpaddle_scalar_returns_by_reference(abi, 65), BARKPADDLE_BAD_ABI, 0);
        check_told("returns in", barkpaddle_wide_integer_returns_in(abi, 65), BARKPADDLE_BAD_ABI, 0);
    }
}

/*
 * A text that an entry writes, that of a number: in every buffer that has room it is the same and the bytes behind it stay; in every smaller
 * one it is NO_ROOM.
 */
static void check_text(const char *place, barkpaddle_told (*entry)(uint64_t, uint8_t *, uint64_t), uint64_t number, const char *text)
{
    uint64_t length;

    for (length = 0; length <= strlen(text) + 2; length++) {
        barkpaddle_told told;

        fill_bytes();
        told = entry(number, length == 0 ? NULL : lent_bytes, length);
        if (length < strlen(text)) {
            check_told(place, told, BARKPADDLE_NO_ROOM, 0);
            check_bytes(place, "");
        } else {
            check_told(place, told, BARKPADDLE_ACCEPTED, strlen(text));
            check_bytes(place, text);
        }
    }
}

static void check_name(uint64_t abi, const char *name)
{
    check_text("name", barkpaddle_name, abi, name);
}

/* Each macro's description has the name of REFERENCE 5.5. */
static void names(void)
{
    uint64_t i;

    check_name(BARKPADDLE_ABI_SYSV_AMD64, "SysV AMD64");
    check_name(BARKPADDLE_ABI_AAPCS64, "AAPCS64");
    check_name(BARKPADDLE_ABI_DARWIN_ARM64, "Darwin arm64");
    check_name(BARKPADDLE_ABI_WINDOWS_ARM64, "Windows arm64");
    check_name(BARKPADDLE_ABI_WINDOWS_X64, "Windows x64");
    check_name(BARKPADDLE_ABI_RISCV_LP64D, "RISC-V LP64D");
    check_name(BARKPADDLE_ABI_RISCV_PSABI_LP64, "RISC-V LP64 psABI");
    check_name(BARKPADDLE_ABI_RISCV_PSABI_LP64F, "RISC-V LP64F psABI");
    check_name(BARKPADDLE_ABI_RISCV_PSABI_LP64D, "RISC-V LP64D psABI");
    check_name(BARKPADDLE_ABI_I386_SYSV, "i386 SysV");
    check_name(BARKPADDLE_ABI_I386_SYSV_REGPARM_1, "i386 SysV regparm(1)");
    check_name(BARKPADDLE_ABI_I386_SYSV_REGPARM_2, "i386 SysV regparm(2)");
    check_name(BARKPADDLE_ABI_I386_SYSV_REGPARM_3, "i386 SysV regparm(3)");
    check_name(BARKPADDLE_ABI_I386_SYSV_REG_STRUCT, "i386 SysV -freg-struct-return");
    check_name(BARKPADDLE_ABI_I386_SYSV_REGPARM_1_REG_STRUCT, "i386 SysV regparm(1) -freg-struct-return");
    check_name(BARKPADDLE_ABI_I386_SYSV_REGPARM_2_REG_STRUCT, "i386 SysV regparm(2) -freg-struct-return");
    check_name(BARKPADDLE_ABI_I386_SYSV_REGPARM_3_REG_STRUCT, "i386 SysV regparm(3) -freg-struct-return");
    check_name(BARKPADDLE_ABI_I386_SYSV_STDCALL, "i386 SysV stdcall");
    check_name(BARKPADDLE_ABI_I386_SYSV_REGPARM_1_STDCALL, "i386 SysV stdcall regparm(1)");
    check_name(BARKPADDLE_ABI_I386_SYSV_REGPARM_2_STDCALL, "i386 SysV stdcall regparm(2)");
    check_name(BARKPADDLE_ABI_I386_SYSV_REGPARM_3_STDCALL, "i386 SysV stdcall regparm(3)");
    check_name(BARKPADDLE_ABI_I386_SYSV_REG_STRUCT_STDCALL, "i386 SysV stdcall -freg-struct-return");
    check_name(BARKPADDLE_ABI_I386_SYSV_REGPARM_1_REG_STRUCT_STDCALL, "i386 SysV stdcall regparm(1) -freg-struct-return");
    check_name(BARKPADDLE_ABI_I386_SYSV_REGPARM_2_REG_STRUCT_STDCALL, "i386 SysV stdcall regparm(2) -freg-struct-return");
    check_name(BARKPADDLE_ABI_I386_SYSV_REGPARM_3_REG_STRUCT_STDCALL, "i386 SysV stdcall regparm(3) -freg-struct-return");
    check_name(BARKPADDLE_ABI_I386_SYSV_FASTCALL, "i386 SysV fastcall");
    check_name(BARKPADDLE_ABI_I386_SYSV_REG_STRUCT_FASTCALL, "i386 SysV fastcall -freg-struct-return");
    check_name(BARKPADDLE_ABI_I386_MINGW, "i386 Windows (mingw)");
    check_name(BARKPADDLE_ABI_I386_MSVC, "i386 Windows (MSVC)");
    check_name(BARKPADDLE_ABI_I386_MINGW_STDCALL, "i386 Windows stdcall (mingw)");
    check_name(BARKPADDLE_ABI_I386_MINGW_FASTCALL, "i386 Windows fastcall (mingw)");
    check_name(BARKPADDLE_ABI_I386_MSVC_STDCALL, "i386 Windows stdcall (MSVC)");
    check_name(BARKPADDLE_ABI_I386_MSVC_FASTCALL, "i386 Windows fastcall (MSVC)");
    fill_bytes();
    for (i = 0; i < COUNT(no_row); i++) {
        check_told("name, BAD_ABI", barkpaddle_name(no_row[i], lent_bytes, sizeof lent_bytes), BARKPADDLE_BAD_ABI, 0);
        check_told("name, BAD_ABI", barkpaddle_name(no_row[i], NULL, 0), BARKPADDLE_BAD_ABI, 0);
    }
    check_bytes("name, BAD_ABI", "");
}

/* ---- lookups ---- */

static uint64_t asked(uint64_t architecture, uint64_t system, const char *name)
{
    return barkpaddle_asked(architecture, system, 0, (const uint8_t *)name, strlen(name));
}

static void check_attribute(uint64_t convention, const char *name)
{
    check_text("attribute", barkpaddle_attribute, convention, name);
}

static void lookups(void)
{
    static const uint64_t unknown[] = {7, 255, 512, UINT64_C(1) << 32, UINT64_MAX};
    uint64_t i;
    uint64_t yes;

    check_number("for_target", "x86-64 Linux", 0, barkpaddle_for_target(BARKPADDLE_ARCH_X86_64, BARKPADDLE_SYSTEM_OTHER, 0));
    check_number("for_target", "x86-64 Windows", 4, barkpaddle_for_target(BARKPADDLE_ARCH_X86_64, BARKPADDLE_SYSTEM_WINDOWS, 1));
    check_number("for_target", "Arm macOS", 2, barkpaddle_for_target(BARKPADDLE_ARCH_AARCH64, BARKPADDLE_SYSTEM_MACOS, 0));
    check_number("for_target", "Arm Windows", 3, barkpaddle_for_target(BARKPADDLE_ARCH_AARCH64, BARKPADDLE_SYSTEM_WINDOWS, 0));
    check_number("for_target", "RISC-V", 5, barkpaddle_for_target(BARKPADDLE_ARCH_RISCV64, BARKPADDLE_SYSTEM_OTHER, 0));
    check_number("for_target", "another", BARKPADDLE_NONE, barkpaddle_for_target(BARKPADDLE_ARCH_OTHER, 3, 0));
    check_number("for_target", "x86 mingw", 24, barkpaddle_for_target(BARKPADDLE_ARCH_X86, BARKPADDLE_SYSTEM_WINDOWS, 0));
    for (yes = 1; yes != 0; yes <<= 1) {
        check_number("for_target", "x86 MSVC", 25, barkpaddle_for_target(BARKPADDLE_ARCH_X86, BARKPADDLE_SYSTEM_WINDOWS, yes));
        check_number(
            "for_convention", "x86 MSVC", 28, barkpaddle_for_convention(BARKPADDLE_ARCH_X86, 0, yes, BARKPADDLE_CONVENTION_STDCALL));
        check_number(
            "asked", "MSVC", BARKPADDLE_CONVENTION_STDCALL, barkpaddle_asked(BARKPADDLE_ARCH_X86, 0, yes, (const uint8_t *)"stdcall", 7));
    }

    check_number("for_convention", "ms", 4, barkpaddle_for_convention(BARKPADDLE_ARCH_X86_64, 3, 0, BARKPADDLE_CONVENTION_MS));
    check_number("for_convention", "sysv", 0, barkpaddle_for_convention(BARKPADDLE_ARCH_X86_64, 0, 0, BARKPADDLE_CONVENTION_SYSV));
    check_number("for_convention", "fastcall", 22, barkpaddle_for_convention(BARKPADDLE_ARCH_X86, 3, 0, BARKPADDLE_CONVENTION_FASTCALL));
    check_number("for_convention", "regparm(3)", 9, barkpaddle_for_convention(BARKPADDLE_ARCH_X86, 3, 0, BARKPADDLE_CONVENTION_REGPARM(3)));
    check_number(
        "for_convention", "regparm(4)", BARKPADDLE_NONE,
        barkpaddle_for_convention(BARKPADDLE_ARCH_X86, 3, 0, BARKPADDLE_CONVENTION_REGPARM(4)));
    check_number("for_convention", "none", 0, barkpaddle_for_convention(BARKPADDLE_ARCH_X86_64, 3, 0, BARKPADDLE_CONVENTION_PRESERVE_NONE));
    check_number(
        "for_convention", "on Arm", BARKPADDLE_NONE, barkpaddle_for_convention(BARKPADDLE_ARCH_AARCH64, 3, 0, BARKPADDLE_CONVENTION_MS));

    check_number("asked", "ms_abi", BARKPADDLE_CONVENTION_MS, asked(BARKPADDLE_ARCH_X86_64, BARKPADDLE_SYSTEM_OTHER, "ms_abi"));
    check_number(
        "asked", "ms_abi on Windows", BARKPADDLE_CONVENTION_TARGET, asked(BARKPADDLE_ARCH_X86_64, BARKPADDLE_SYSTEM_WINDOWS, "ms_abi"));
    check_number("asked", "sysv_abi", BARKPADDLE_CONVENTION_SYSV, asked(BARKPADDLE_ARCH_X86_64, BARKPADDLE_SYSTEM_WINDOWS, "sysv_abi"));
    check_number(
        "asked", "preserve_none", BARKPADDLE_CONVENTION_PRESERVE_NONE,
        asked(BARKPADDLE_ARCH_X86_64, BARKPADDLE_SYSTEM_OTHER_DARWIN, "preserve_none"));
    check_number("asked", "preserve_none", BARKPADDLE_NONE, asked(BARKPADDLE_ARCH_X86_64, BARKPADDLE_SYSTEM_MACOS, "preserve_none"));
    check_number("asked", "cdecl", BARKPADDLE_CONVENTION_TARGET, asked(BARKPADDLE_ARCH_X86, 0, "cdecl"));
    check_number("asked", "fastcall", BARKPADDLE_CONVENTION_FASTCALL, asked(BARKPADDLE_ARCH_X86, 0, "fastcall"));
    check_number("asked", "Cdecl", BARKPADDLE_NONE, asked(BARKPADDLE_ARCH_X86, 0, "Cdecl"));
    check_number("asked", "cdec", BARKPADDLE_NONE, asked(BARKPADDLE_ARCH_X86, 0, "cdec"));
    check_number("asked", "cdeclx", BARKPADDLE_NONE, asked(BARKPADDLE_ARCH_X86, 0, "cdeclx"));
    check_number("asked", "a 0 behind", BARKPADDLE_NONE, barkpaddle_asked(BARKPADDLE_ARCH_X86, 0, 0, (const uint8_t *)"cdecl", 6));
    check_number("asked", "nothing", BARKPADDLE_NONE, barkpaddle_asked(BARKPADDLE_ARCH_X86, 0, 0, NULL, 0));
    check_number("asked", "on Arm", BARKPADDLE_NONE, asked(BARKPADDLE_ARCH_AARCH64, 0, "cdecl"));

    check_attribute(BARKPADDLE_CONVENTION_MS, "ms_abi");
    check_attribute(BARKPADDLE_CONVENTION_NO_CALLEE_SAVED, "no_callee_saved_registers");
    check_attribute(BARKPADDLE_CONVENTION_REGPARM(0), "regparm(0)");
    check_attribute(BARKPADDLE_CONVENTION_REGPARM(255), "regparm(3)");
    fill_bytes();
    check_told("no attribute", barkpaddle_attribute(BARKPADDLE_CONVENTION_TARGET, lent_bytes, 64), 0, BARKPADDLE_NONE);
    check_told("no attribute", barkpaddle_attribute(BARKPADDLE_CONVENTION_TARGET, NULL, 0), 0, BARKPADDLE_NONE);

    check_number("callee_pops", "stdcall", 1, barkpaddle_callee_pops(BARKPADDLE_CONVENTION_STDCALL));
    check_number("callee_pops", "fastcall", 1, barkpaddle_callee_pops(BARKPADDLE_CONVENTION_FASTCALL));
    check_number("callee_pops", "target", 0, barkpaddle_callee_pops(BARKPADDLE_CONVENTION_TARGET));
    check_number("callee_pops", "regparm", 0, barkpaddle_callee_pops(BARKPADDLE_CONVENTION_REGPARM(3)));

    /* codes that nobody knows, even where that part wouldn't be read */
    for (i = 0; i < COUNT(unknown); i++) {
        check_number("unknown", "architecture", BARKPADDLE_NONE, barkpaddle_for_target(unknown[i], 0, 0));
        check_number("unknown", "system", BARKPADDLE_NONE, barkpaddle_for_target(BARKPADDLE_ARCH_RISCV64, unknown[i], 0));
        check_number("unknown", "convention", BARKPADDLE_NONE, barkpaddle_for_convention(BARKPADDLE_ARCH_X86_64, 3, 0, unknown[i]));
        check_number("unknown", "its system", BARKPADDLE_NONE, barkpaddle_for_convention(BARKPADDLE_ARCH_X86_64, unknown[i], 0, 1));
        check_number("unknown", "asked there", BARKPADDLE_NONE, asked(unknown[i], 0, "cdecl"));
        check_number("unknown", "asked on it", BARKPADDLE_NONE, asked(BARKPADDLE_ARCH_X86, unknown[i], "cdecl"));
        check_told("unknown attribute", barkpaddle_attribute(unknown[i], lent_bytes, 64), 0, BARKPADDLE_NONE);
        check_number("unknown", "pops", 0, barkpaddle_callee_pops(unknown[i]));
    }
    check_number("unknown", "architecture 5", BARKPADDLE_NONE, barkpaddle_for_target(5, 0, 0));
    check_number("unknown", "system 4", BARKPADDLE_NONE, barkpaddle_for_target(1, 4, 0));
    check_bytes("no attribute", "");
}

/* ---- reading a variable argument list ---- */

/* What a read is handed: the lengths of the areas, the offsets, the scalar. */
enum read_word { SAVE_LENGTH, OVERFLOW_LENGTH, GP_OFFSET, FP_OFFSET, OVERFLOW_OFFSET, READ_KIND, READ_SIZE, READ_ALIGN, READ_WORDS };

typedef struct question {
    uint64_t word[READ_WORDS];
} question;

#define SAVE_BYTES 176
#define OVERFLOW_BYTES 96

/* The areas have a byte more than is ever lent; nobody may change one. */
static uint8_t save_area[SAVE_BYTES + 2], save_before[SAVE_BYTES + 2];
static uint8_t overflow_area[OVERFLOW_BYTES + 1], overflow_before[OVERFLOW_BYTES + 1];

static void fill_areas(void)
{
    size_t i;

    for (i = 0; i < sizeof save_area; i++)
        save_area[i] = (uint8_t)(i ^ 0xA5);
    for (i = 0; i < sizeof overflow_area; i++)
        overflow_area[i] = (uint8_t)(i ^ 0x5A);
    memcpy(save_before, save_area, sizeof save_area);
    memcpy(overflow_before, overflow_area, sizeof overflow_area);
}

/* The scalars that a reader accepts: kind, and size, which is the alignment, too. */
static const uint64_t readable[][2] = {{0, 1}, {0, 2}, {0, 4}, {0, 8}, {0, 16}, {1, 4}, {2, 8}, {3, 16}, {4, 16}};

/* A scalar that is aligned to its size, from a save area as it should be and an overflow area that is long enough. */
static question question_of(uint64_t gp_offset, uint64_t fp_offset, uint64_t overflow_offset, uint64_t kind, uint64_t size)
{
    question q;

    q.word[SAVE_LENGTH] = SAVE_BYTES;
    q.word[OVERFLOW_LENGTH] = OVERFLOW_BYTES;
    q.word[GP_OFFSET] = gp_offset;
    q.word[FP_OFFSET] = fp_offset;
    q.word[OVERFLOW_OFFSET] = overflow_offset;
    q.word[READ_KIND] = kind;
    q.word[READ_SIZE] = size;
    q.word[READ_ALIGN] = size;
    return q;
}

static question with(question q, enum read_word word, uint64_t number)
{
    q.word[word] = number;
    return q;
}

/* The next offsets are those of the question, which are changed where it isn't so. */
static barkpaddle_part part_of(question q, uint64_t refusal, uint64_t area, uint64_t start, uint64_t length)
{
    barkpaddle_part part;

    part.refusal = refusal;
    part.area = area;
    part.start = start;
    part.length = length;
    part.gp_offset = q.word[GP_OFFSET];
    part.fp_offset = q.word[FP_OFFSET];
    part.overflow_offset = q.word[OVERFLOW_OFFSET];
    return part;
}

static void check_part(const char *place, barkpaddle_part expected, barkpaddle_part got)
{
    check_number(place, "refusal", expected.refusal, got.refusal);
    check_number(place, "area", expected.area, got.area);
    check_number(place, "start", expected.start, got.start);
    check_number(place, "length", expected.length, got.length);
    check_number(place, "gp_offset", expected.gp_offset, got.gp_offset);
    check_number(place, "fp_offset", expected.fp_offset, got.fp_offset);
    check_number(place, "overflow_offset", expected.overflow_offset, got.overflow_offset);
}

/* The header's macro points to the part: into the area that the number says, or nowhere. */
static void check_part_bytes(const char *place, barkpaddle_part expected, barkpaddle_part got)
{
    const uint8_t *bytes = BARKPADDLE_PART_BYTES(got, save_area, overflow_area);
    const uint8_t *at = NULL;

    if (expected.area == 1)
        at = save_area + expected.start;
    if (expected.area == 2)
        at = overflow_area + expected.start;
    check_number(place, "bytes that are elsewhere", 0, bytes != at);
}

static void show_question(question q)
{
    int i;

    printf("    save length, overflow length, three offsets, scalar:");
    for (i = 0; i < READ_WORDS; i++)
        printf(" %llu", (unsigned long long)q.word[i]);
    printf("\n");
}

/* An area of no bytes is lent as NULL. */
static void check_read(const char *place, question q, barkpaddle_part expected)
{
    const uint64_t *w = q.word;
    unsigned long failed_before = failed;
    barkpaddle_part got = barkpaddle_read_scalar(
        w[SAVE_LENGTH] == 0 ? NULL : save_area, w[SAVE_LENGTH], w[OVERFLOW_LENGTH] == 0 ? NULL : overflow_area, w[OVERFLOW_LENGTH],
        w[GP_OFFSET], w[FP_OFFSET], w[OVERFLOW_OFFSET], w[READ_KIND], w[READ_SIZE], w[READ_ALIGN]);

    check_part(place, expected, got);
    check_part_bytes(place, expected, got);
    check_number(place, "a difference in the save area", 0, memcmp(save_area, save_before, sizeof save_area) != 0);
    check_number(place, "a difference in the overflow area", 0, memcmp(overflow_area, overflow_before, sizeof overflow_area) != 0);
    if (failed > failed_before && failed <= 40)
        show_question(q);
}

/* A refused read: an empty part of no area, and the offsets that were handed in. */
static void check_read_refused(const char *place, question q, uint64_t refusal)
{
    check_read(place, q, part_of(q, refusal, BARKPADDLE_AREA_NOWHERE, 0, 0));
}

/* A scalar of a list, which is aligned to its size: where it stands, and the offsets behind it. */
typedef struct step {
    uint64_t kind, size, area, start, gp_offset, fp_offset, overflow_offset;
} step;

/*
 * The scalars of a list, one after the other, from these offsets. In an overflow area of every length: where the scalar stands there the
 * area has to reach over its last byte, and elsewhere it may be empty.
 */
static void check_steps(const char *place, uint64_t gp_offset, uint64_t fp_offset, uint64_t overflow_offset, const step *steps, size_t count)
{
    uint64_t length;
    size_t i;

    for (i = 0; i < count; i++) {
        const step *s = &steps[i];
        question q = question_of(gp_offset, fp_offset, overflow_offset, s->kind, s->size);
        barkpaddle_part expected = part_of(q, BARKPADDLE_ACCEPTED, s->area, s->start, s->size);
        uint64_t least = s->area == BARKPADDLE_AREA_OVERFLOW ? s->start + s->size : 0;

        expected.gp_offset = gp_offset = s->gp_offset;
        expected.fp_offset = fp_offset = s->fp_offset;
        expected.overflow_offset = overflow_offset = s->overflow_offset;
        for (length = 0; length <= OVERFLOW_BYTES; length++)
            if (length < least)
                check_read_refused(place, with(q, OVERFLOW_LENGTH, length), BARKPADDLE_BAD_AREA);
            else
                check_read(place, with(q, OVERFLOW_LENGTH, length), expected);
    }
}

#define STEPS(place, gp_offset, fp_offset, overflow_offset, steps) \
    check_steps(place, gp_offset, fp_offset, overflow_offset, steps, COUNT(steps))

/* In a step: 1 is the save area, 2 the overflow area. */
static void lists_in_the_save_area(void)
{
    static const step nine_doubles[] = {
        {2, 8, 1, 48, 0, 64, 0},   {2, 8, 1, 64, 0, 80, 0},   {2, 8, 1, 80, 0, 96, 0},   {2, 8, 1, 96, 0, 112, 0}, {2, 8, 1, 112, 0, 128, 0},
        {2, 8, 1, 128, 0, 144, 0}, {2, 8, 1, 144, 0, 160, 0}, {2, 8, 1, 160, 0, 176, 0}, {2, 8, 2, 0, 0, 176, 8}};
    static const step six_integers[] = {{0, 8, 1, 0, 8, 48, 0},    {0, 8, 1, 8, 16, 48, 0},  {0, 8, 1, 16, 24, 48, 0},
                                        {0, 8, 1, 24, 32, 48, 0},  {0, 8, 1, 32, 40, 48, 0}, {0, 8, 1, 40, 48, 48, 0},
                                        {0, 16, 2, 0, 48, 48, 16}, {0, 8, 2, 16, 48, 48, 24}};
    static const step one_place[] = {{0, 16, 2, 0, 40, 48, 16}, {0, 8, 1, 40, 48, 48, 16}};
    static const step two_places[] = {{0, 16, 1, 32, 48, 48, 0}, {0, 16, 2, 0, 48, 48, 16}};
    static const step small_integers[] = {
        {0, 1, 1, 0, 8, 160, 0}, {0, 2, 1, 8, 16, 160, 0}, {0, 4, 1, 16, 24, 160, 0}, {0, 16, 1, 24, 40, 160, 0}, {0, 1, 1, 40, 48, 160, 0}};
    static const step three_formats[] = {{1, 4, 1, 128, 48, 144, 8}, {4, 16, 1, 144, 48, 160, 8}, {2, 8, 1, 160, 48, 176, 8},
                                         {1, 4, 2, 8, 48, 176, 16},  {4, 16, 2, 16, 48, 176, 32}};
    static const step x87_first[] = {
        {3, 16, 2, 0, 0, 48, 16}, {0, 4, 1, 0, 8, 48, 16}, {4, 16, 1, 48, 8, 64, 16}, {3, 16, 2, 16, 8, 64, 32}};

    STEPS("nine Doubles", 0, 48, 0, nine_doubles);
    STEPS("six integers, then 16 and 8", 0, 48, 0, six_integers);
    STEPS("one integer place", 40, 48, 0, one_place);
    STEPS("two integer places", 32, 48, 0, two_places);
    STEPS("small integers", 0, 160, 0, small_integers);
    STEPS("three formats", 48, 128, 8, three_formats);
    STEPS("X87 first", 0, 48, 0, x87_first);
}

static void lists_in_the_overflow_area(void)
{
    static const step hole[] = {{0, 8, 2, 0, 48, 176, 8}, {4, 16, 2, 16, 48, 176, 32}};
    static const step from_8[] = {{0, 8, 2, 8, 48, 176, 16}, {3, 16, 2, 16, 48, 176, 32}};
    static const step wide_from_8[] = {{3, 16, 2, 16, 48, 176, 32}, {0, 2, 2, 32, 48, 176, 40}};
    static const step from_24[] = {{2, 8, 2, 24, 48, 176, 32}, {0, 16, 2, 32, 48, 176, 48}};
    static const step wide_from_24[] = {{0, 16, 2, 32, 48, 176, 48}, {1, 4, 2, 48, 48, 176, 56}};
    /* taken as it is, though no caller starts there; the next one is 8 behind it */
    static const step from_4[] = {
        {0, 4, 2, 4, 48, 176, 12}, {0, 1, 2, 12, 48, 176, 20}, {2, 8, 2, 20, 48, 176, 28}, {4, 16, 2, 32, 48, 176, 48}};

    STEPS("a hole of 8", 48, 176, 0, hole);
    STEPS("from 8", 48, 176, 8, from_8);
    STEPS("from 8, wide", 48, 176, 8, wide_from_8);
    STEPS("from 24", 48, 176, 24, from_24);
    STEPS("from 24, wide", 48, 176, 24, wide_from_24);
    STEPS("from 4", 48, 176, 4, from_4);
}

/* A second reading of the rules, in places that are left; the question is a good one, and its numbers are small. */
static barkpaddle_part worked_out(question q)
{
    const uint64_t *w = q.word;
    uint64_t size = w[READ_SIZE];
    uint64_t integers = (48 - w[GP_OFFSET]) / 8;
    uint64_t floats = (176 - w[FP_OFFSET]) / 16;
    uint64_t wanted = size == 16 ? 2 : 1;
    uint64_t start = w[OVERFLOW_OFFSET];
    barkpaddle_part part;

    if (w[READ_KIND] == 0 && wanted <= integers) {
        part = part_of(q, 0, 1, w[GP_OFFSET], size);
        part.gp_offset += 8 * wanted;
        return part;
    }
    if (w[READ_KIND] != 0 && w[READ_KIND] != 3 && floats > 0) {
        part = part_of(q, 0, 1, w[FP_OFFSET], size);
        part.fp_offset += 16;
        return part;
    }
    while (size == 16 && start % 16 != 0)
        start++;
    if (w[OVERFLOW_LENGTH] < start + size)
        return part_of(q, BARKPADDLE_BAD_AREA, 0, 0, 0);
    part = part_of(q, 0, 2, start, size);
    part.overflow_offset = start + 8 * wanted;
    return part;
}

/* Each scalar from all offsets into the save area and many into the overflow area, which ends before, in or behind the scalar. */
static void all_offsets(void)
{
    uint64_t gp, fp, overflow, length;
    size_t i;

    for (i = 0; i < COUNT(readable); i++)
        for (gp = 0; gp <= 48; gp += 8)
            for (fp = 48; fp <= 176; fp += 16)
                for (overflow = 0; overflow <= 33; overflow++) {
                    question q = question_of(gp, fp, overflow, readable[i][0], readable[i][1]);

                    for (length = overflow; length <= overflow + 32; length++) {
                        q.word[OVERFLOW_LENGTH] = length;
                        check_read("all offsets", q, worked_out(q));
                    }
                }
}

static int is_readable(uint64_t kind, uint64_t size)
{
    size_t i;

    for (i = 0; i < COUNT(readable); i++)
        if (readable[i][0] == kind && readable[i][1] == size)
            return 1;
    return 0;
}

/* Each size of each kind, and each alignment of each scalar that has its size; for what stands in either area. */
static void sizes_and_alignments(void)
{
    static const uint64_t large[] = {128, 256, 4096, 4097, (UINT64_C(1) << 32) + 4, (UINT64_C(1) << 32) + 16, UINT64_C(1) << 63, UINT64_MAX};
    uint64_t kind, size, align;
    size_t i;
    int full;

    for (full = 0; full < 2; full++)
        for (kind = 0; kind < 5; kind++) {
            question q = question_of(full ? 48 : 0, full ? 176 : 48, 0, kind, 0);

            for (i = 0; i < COUNT(large); i++)
                check_read_refused("a large size", with(with(q, READ_SIZE, large[i]), READ_ALIGN, large[i]), BARKPADDLE_BAD_SIZE);
            for (size = 0; size <= 66; size++) {
                q.word[READ_SIZE] = q.word[READ_ALIGN] = size;
                if (!is_readable(kind, size)) {
                    check_read_refused("a size", q, BARKPADDLE_BAD_SIZE);
                    check_read_refused("a size, aligned to 16", with(q, READ_ALIGN, 16), BARKPADDLE_BAD_SIZE);
                    continue;
                }
                check_read("a size", q, worked_out(q));
                for (align = 0; align <= 4100; align++)
                    if (align != size)
                        check_read_refused("an alignment", with(q, READ_ALIGN, align), BARKPADDLE_BAD_ALIGN);
                for (i = 0; i < COUNT(large); i++)
                    check_read_refused("a large alignment", with(q, READ_ALIGN, large[i]), BARKPADDLE_BAD_ALIGN);
            }
        }
}

/* Save areas and offsets into them that can't be, for every scalar, from whichever area it comes. */
static void bad_save_areas(question q)
{
    static const uint64_t far_gp[] = {(UINT64_C(1) << 32) + 8, UINT64_C(1) << 63, UINT64_MAX - 7, UINT64_MAX};
    static const uint64_t far_fp[] = {(UINT64_C(1) << 32) + 48, UINT64_C(1) << 63, UINT64_MAX - 15, UINT64_MAX};
    uint64_t n;

    for (n = 0; n <= SAVE_BYTES + 1; n++)
        if (n != SAVE_BYTES)
            check_read_refused("a save area's length", with(q, SAVE_LENGTH, n), BARKPADDLE_BAD_AREA);
    check_read_refused("both areas NULL", with(with(q, SAVE_LENGTH, 0), OVERFLOW_LENGTH, 0), BARKPADDLE_BAD_AREA);
    for (n = 0; n <= 64; n++)
        if (n % 8 != 0 || n > 48)
            check_read_refused("an integer offset", with(q, GP_OFFSET, n), BARKPADDLE_BAD_AREA);
    for (n = 0; n <= 208; n++)
        if (n % 16 != 0 || n < 48 || n > 176)
            check_read_refused("a float offset", with(q, FP_OFFSET, n), BARKPADDLE_BAD_AREA);
    for (n = 0; n < COUNT(far_gp); n++)
        check_read_refused("an integer offset", with(q, GP_OFFSET, far_gp[n]), BARKPADDLE_BAD_AREA);
    for (n = 0; n < COUNT(far_fp); n++)
        check_read_refused("a float offset", with(q, FP_OFFSET, far_fp[n]), BARKPADDLE_BAD_AREA);
}

/* Overflow offsets at the area's end and behind it, up to the last number: refused where the scalar is there, and otherwise handed on. */
static void far_overflow_offsets(question q)
{
    static const uint64_t lengths[] = {0, 15, 16, OVERFLOW_BYTES};
    static const uint64_t far_off[] = {0, 1, 15, 16, UINT64_C(1) << 32, UINT64_C(1) << 63, (UINT64_C(1) << 63) - 8};
    size_t i;
    size_t k;

    for (i = 0; i < COUNT(lengths); i++) {
        q.word[OVERFLOW_LENGTH] = lengths[i];
        for (k = 0; k < COUNT(far_off); k++)
            check_read_refused("behind the area", with(q, OVERFLOW_OFFSET, lengths[i] + far_off[k]), BARKPADDLE_BAD_AREA);
        for (k = 0; k < 40; k++)
            check_read_refused("the last offsets", with(q, OVERFLOW_OFFSET, UINT64_MAX - k), BARKPADDLE_BAD_AREA);
    }
}

static void offsets_nobody_looks_at(question q)
{
    static const uint64_t offsets[] = {0, 4, OVERFLOW_BYTES, OVERFLOW_BYTES + 1, UINT64_C(1) << 63, UINT64_MAX - 14, UINT64_MAX};
    size_t i;

    for (i = 0; i < COUNT(offsets); i++) {
        q.word[OVERFLOW_OFFSET] = offsets[i];
        check_read("in the save area", q, worked_out(q));
        check_read("in the save area, no other", with(q, OVERFLOW_LENGTH, 0), worked_out(q));
    }
}

static void bad_areas(void)
{
    size_t i;

    for (i = 0; i < COUNT(readable); i++) {
        question whole = question_of(0, 48, 0, readable[i][0], readable[i][1]);
        question full = question_of(48, 176, 0, readable[i][0], readable[i][1]);

        bad_save_areas(whole);
        bad_save_areas(full);
        far_overflow_offsets(full);
        if (readable[i][0] == BARKPADDLE_KIND_X87_EXTENDED)
            far_overflow_offsets(whole);
        else
            offsets_nobody_looks_at(whole);
    }
}

/* One thing that is wrong with a read of an integer of 8 from an overflow area of 16 bytes, and what it is refused for. */
typedef struct fault {
    enum read_word word;
    uint64_t number, refusal;
} fault;

static const fault faults[] = {
    {READ_KIND, 5, BARKPADDLE_BAD_KIND},
    {READ_KIND, UINT64_C(1) << 32, BARKPADDLE_BAD_KIND},
    {READ_KIND, UINT64_MAX, BARKPADDLE_BAD_KIND},
    {READ_SIZE, 0, BARKPADDLE_BAD_SIZE},
    {READ_SIZE, 3, BARKPADDLE_BAD_SIZE},
    {READ_SIZE, 17, BARKPADDLE_BAD_SIZE},
    {READ_SIZE, 64, BARKPADDLE_BAD_SIZE},
    {READ_SIZE, 65, BARKPADDLE_BAD_SIZE},
    {READ_ALIGN, 0, BARKPADDLE_BAD_ALIGN},
    {READ_ALIGN, 1, BARKPADDLE_BAD_ALIGN},
    {READ_ALIGN, 4096, BARKPADDLE_BAD_ALIGN},
    {READ_ALIGN, 4097, BARKPADDLE_BAD_ALIGN},
    {SAVE_LENGTH, 0, BARKPADDLE_BAD_AREA},
    {SAVE_LENGTH, 175, BARKPADDLE_BAD_AREA},
    {SAVE_LENGTH, 177, BARKPADDLE_BAD_AREA},
    {GP_OFFSET, 4, BARKPADDLE_BAD_AREA},
    {GP_OFFSET, 47, BARKPADDLE_BAD_AREA},
    {GP_OFFSET, 56, BARKPADDLE_BAD_AREA},
    {GP_OFFSET, (UINT64_C(1) << 32) + 8, BARKPADDLE_BAD_AREA},
    {GP_OFFSET, UINT64_MAX - 7, BARKPADDLE_BAD_AREA},
    {FP_OFFSET, 0, BARKPADDLE_BAD_AREA},
    {FP_OFFSET, 40, BARKPADDLE_BAD_AREA},
    {FP_OFFSET, 56, BARKPADDLE_BAD_AREA},
    {FP_OFFSET, 168, BARKPADDLE_BAD_AREA},
    {FP_OFFSET, 192, BARKPADDLE_BAD_AREA},
    {OVERFLOW_LENGTH, 0, BARKPADDLE_BAD_AREA},
    {OVERFLOW_LENGTH, 7, BARKPADDLE_BAD_AREA},
    {OVERFLOW_OFFSET, 9, BARKPADDLE_BAD_AREA},
    {OVERFLOW_OFFSET, 16, BARKPADDLE_BAD_AREA},
    {OVERFLOW_OFFSET, 17, BARKPADDLE_BAD_AREA},
    {OVERFLOW_OFFSET, UINT64_C(1) << 63, BARKPADDLE_BAD_AREA},
    {OVERFLOW_OFFSET, UINT64_MAX - 14, BARKPADDLE_BAD_AREA},
    {OVERFLOW_OFFSET, UINT64_MAX, BARKPADDLE_BAD_AREA}};

/* Each fault by itself, and each two at once: the table has them in the order in which they are looked for. */
static void faults_of_a_read(void)
{
    question good = with(question_of(48, 176, 0, BARKPADDLE_KIND_INTEGER, 8), OVERFLOW_LENGTH, 16);
    size_t i;
    size_t k;

    check_read("no fault", good, worked_out(good));
    for (i = 0; i < COUNT(faults); i++) {
        question one = with(good, faults[i].word, faults[i].number);

        check_read_refused("a fault", one, faults[i].refusal);
        for (k = i + 1; k < COUNT(faults); k++)
            if (faults[k].word != faults[i].word)
                check_read_refused("two faults", with(one, faults[k].word, faults[k].number), faults[i].refusal);
    }
    check_read_refused("an X87 of 12", question_of(0, 48, 0, BARKPADDLE_KIND_X87_EXTENDED, 12), BARKPADDLE_BAD_SIZE);
    check_read_refused("a Single of 8", question_of(0, 48, 0, BARKPADDLE_KIND_SINGLE, 8), BARKPADDLE_BAD_SIZE);
}

static void variable_lists(void)
{
    fill_areas();
    lists_in_the_save_area();
    lists_in_the_overflow_area();
    all_offsets();
    sizes_and_alignments();
    bad_areas();
    faults_of_a_read();
}

int main(void)
{
    check_number("the archive", "version", BARKPADDLE_VERSION, barkpaddle_version());
    starts();
    twelve();
    beside_the_twelve();
    carries_nothing();
    riscv_psabi();
    refusals_of(RETURN);
    refusals_of(ARGUMENT);
    refusals_of(VARIADIC_ARGUMENT);
    forms_of(RETURN);
    forms_of(ARGUMENT);
    forms_of(VARIADIC_ARGUMENT);
    lent_calls();
    one_call_in_both_forms();
    mark_of_two();
    history();
    in_memory();
    the_stack();
    records();
    ends_past();
    descriptions();
    names();
    lookups();
    variable_lists();
    printf("%lu checks passed, %lu failed\n", passed, failed);
    return failed != 0;
}
