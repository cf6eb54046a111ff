/*
 * lines rows | lines lookups | lines sheet <SHEET: prints through the entries of barkpaddle.h what the original prints of its descriptions,
 * of its lookups, and for the operations of a sheet (oracle/README.md, REFERENCE 11). The original's own lines are stored with the programs
 * abis_main, targets_main and callsheet; tests/c/run compares. A sheet here has to be a good one: what can't be read ends it with status 2.
 */
#include <stdio.h>
#include <string.h>

#include "barkpaddle.h"

#define COUNT(array) (sizeof(array) / sizeof((array)[0]))

typedef unsigned long long shown; /* for printf, which has no plain way to show a uint64_t in C99 without inttypes.h */

/* ---- rows ---- */

static void print_rule(uint64_t row, const char *list, uint64_t at, barkpaddle_rule rule)
{
    shown numbers[4] = {0, 0, 0, 0};
    int i;

    if (rule.test == BARKPADDLE_TEST_SIZE_ONE_OF)
        for (i = 0; i < 4; i++)
            numbers[i] = BARKPADDLE_TEST_SIZE(rule.number, i);
    else
        numbers[0] = rule.number;
    /* the original's lines number the tests from 0 */
    printf("row %llu %s %llu %llu", (shown)row, list, (shown)at, (shown)(rule.test - 1));
    printf(" %llu %llu %llu %llu", numbers[0], numbers[1], numbers[2], numbers[3]);
    printf(" %llu %llu\n", (shown)rule.travel, (shown)rule.short_);
}

static void print_row(uint64_t row)
{
    uint8_t name[BARKPADDLE_MOST_NAME_BYTES];
    barkpaddle_told length = barkpaddle_name(row, name, sizeof name);
    barkpaddle_description_fields d = barkpaddle_description(row);
    barkpaddle_rule rule;
    uint64_t i;

    printf("row %llu name %.*s\n", (shown)row, (int)length.value, (const char *)name);
    printf("row %llu banks %llu %llu %llu", (shown)row, (shown)d.integer, (shown)d.float_, (shown)d.shared);
    printf(" %llu %llu\n", (shown)d.integer_width, (shown)d.float_width);
    printf("row %llu scalars %llu %llu", (shown)row, (shown)d.in_memory, (shown)d.wide_integer_is_all_or_nothing);
    printf(" %llu %llu", (shown)d.wide_integer_starts_even, (shown)d.wide_integer_drains);
    printf(" %llu %llu", (shown)d.wide_is_by_reference, (shown)d.wide_integer_returns_in);
    printf(" %llu %llu", (shown)d.wide_integer_in_memory, (shown)d.decimal_in_integers);
    printf(" %llu %llu\n", (shown)d.quad_returns_by_reference, (shown)d.float_falls_to_integers);
    printf("row %llu others %llu %llu", (shown)row, (shown)d.return_pointer, (shown)d.variadic);
    printf(" %llu %llu %llu %llu\n", (shown)d.stack_args, (shown)d.narrow, (shown)d.bit_ints, (shown)d.cleanup);
    for (i = 0; (rule = barkpaddle_return_rule(row, i)).test != BARKPADDLE_TEST_NO_RULE; i++)
        print_rule(row, "returns", i, rule);
    for (i = 0; (rule = barkpaddle_argument_rule(row, i)).test != BARKPADDLE_TEST_NO_RULE; i++)
        print_rule(row, "arguments", i, rule);
    for (i = 0; i <= BARKPADDLE_LARGEST_SCALAR; i++) {
        printf("row %llu questions %llu", (shown)row, (shown)i);
        printf(" %llu", (shown)barkpaddle_scalar_is_by_reference(row, i).value);
        printf(" %llu", (shown)barkpaddle_scalar_returns_by_reference(row, i).value);
        printf(" %llu\n", (shown)barkpaddle_wide_integer_returns_in(row, i).value);
    }
}

/* ---- lookups ---- */

static void print_found(uint64_t found)
{
    if (found == BARKPADDLE_NONE)
        printf(" none\n");
    else
        printf(" %llu\n", (shown)found);
}

static void print_asked(uint64_t a, uint64_t s, uint64_t m, const char *name)
{
    printf("asked %llu %llu %llu %s", (shown)a, (shown)s, (shown)m, *name ? name : "-");
    print_found(barkpaddle_asked(a, s, m, (const uint8_t *)name, strlen(name)));
}

/* A name, and three near misses of it. */
static void print_asked_about(uint64_t a, uint64_t s, uint64_t m, const char *name)
{
    char other[BARKPADDLE_MOST_NAME_BYTES];

    print_asked(a, s, m, name);
    strcpy(other, name);
    other[0] = (char)(other[0] - 'a' + 'A');
    print_asked(a, s, m, other);
    strcpy(other, name);
    other[strlen(other) - 1] = '\0';
    print_asked(a, s, m, other);
    strcpy(other, name);
    strcat(other, "x");
    print_asked(a, s, m, other);
}

static void print_lookups(void)
{
    static const uint64_t conventions[] = {
        0, 1, 2, 3, 4, 5, 6, BARKPADDLE_CONVENTION_REGPARM(0), BARKPADDLE_CONVENTION_REGPARM(1), BARKPADDLE_CONVENTION_REGPARM(2),
        BARKPADDLE_CONVENTION_REGPARM(3), BARKPADDLE_CONVENTION_REGPARM(4), BARKPADDLE_CONVENTION_REGPARM(255)};
    static const char *const names[] = {"ms_abi", "sysv_abi", "no_callee_saved_registers", "preserve_none", "stdcall", "fastcall", "cdecl"};
    uint8_t name[BARKPADDLE_MOST_NAME_BYTES];
    uint64_t t;
    size_t i;

#define A (t / 8)
#define S (t / 2 % 4)
#define M (t % 2)
    for (t = 0; t < 40; t++) {
        printf("target %llu %llu %llu", (shown)A, (shown)S, (shown)M);
        print_found(barkpaddle_for_target(A, S, M));
    }
    for (t = 0; t < 40; t++)
        for (i = 0; i < COUNT(conventions); i++) {
            printf("convention %llu %llu %llu %llu", (shown)A, (shown)S, (shown)M, (shown)conventions[i]);
            print_found(barkpaddle_for_convention(A, S, M, conventions[i]));
        }
    for (t = 0; t < 40; t++) {
        for (i = 0; i < COUNT(names); i++)
            print_asked_about(A, S, M, names[i]);
        print_asked(A, S, M, "regparm");
        print_asked(A, S, M, "");
    }
#undef A
#undef S
#undef M
    for (i = 0; i < COUNT(conventions); i++) {
        barkpaddle_told told = barkpaddle_attribute(conventions[i], name, sizeof name);

        printf("attribute %llu ", (shown)conventions[i]);
        if (told.value == BARKPADDLE_NONE)
            printf("none\n");
        else
            printf("%.*s\n", (int)told.value, (const char *)name);
    }
    for (i = 0; i < COUNT(conventions); i++)
        printf("pops %llu %llu\n", (shown)conventions[i], (shown)barkpaddle_callee_pops(conventions[i]));
}

/* ---- a sheet ---- */

enum { FRESH, MARK, RETURN, ARGUMENT, VARIADIC_ARGUMENT, PIECE };

static uint64_t words[4 * 1024];

static int read_record(uint64_t record[6])
{
    unsigned char bytes[48];
    int i;
    int byte;

    if (fread(bytes, 1, sizeof bytes, stdin) != sizeof bytes)
        return 0;
    for (i = 0; i < 6; i++)
        for (record[i] = 0, byte = 7; byte >= 0; byte--)
            record[i] = record[i] << 8 | bytes[8 * i + byte];
    return 1;
}

/* The operation of a record on the call that the last answer left. */
static barkpaddle_answer perform(const uint64_t r[6], barkpaddle_call c, uint64_t *slots, uint64_t length)
{
    uint64_t complex_ = r[4] % 2;
    uint64_t floating = r[4] / 2;

#define CALL c.abi, c.integer, c.float_, c.integers_only, c.stack
#define LENT slots, length
#define SHAPE r[2], r[3], complex_, floating, words, 4 * r[5]
    switch (3 * r[0] + r[1]) {
    case 3 * RETURN:
        return barkpaddle_return_void(CALL, LENT);
    case 3 * RETURN + 1:
        return barkpaddle_return_scalar(CALL, r[2], r[3], r[4], LENT);
    case 3 * RETURN + 2:
        return barkpaddle_return_aggregate(CALL, SHAPE, LENT);
    case 3 * ARGUMENT:
        return barkpaddle_argument_void(CALL, LENT);
    case 3 * ARGUMENT + 1:
        return barkpaddle_argument_scalar(CALL, r[2], r[3], r[4], LENT);
    case 3 * ARGUMENT + 2:
        return barkpaddle_argument_aggregate(CALL, SHAPE, LENT);
    case 3 * VARIADIC_ARGUMENT:
        return barkpaddle_variadic_argument_void(CALL, LENT);
    case 3 * VARIADIC_ARGUMENT + 1:
        return barkpaddle_variadic_argument_scalar(CALL, r[2], r[3], r[4], LENT);
    default:
        return barkpaddle_variadic_argument_aggregate(CALL, SHAPE, LENT);
    }
#undef CALL
#undef LENT
#undef SHAPE
}

static int print_sheet(void)
{
    static const char *const ways[] = {"ignore", "direct", "pieces", "reference", "memory"};
    uint64_t slots[BARKPADDLE_MOST_SLOT_WORDS];
    uint64_t r[6];
    barkpaddle_answer a = {{0, 0, 0, 0, 0}, {0, 0, 0, 0, 0, 0, 0, 0, 0}};
    uint64_t before;
    uint64_t i;

    while (read_record(r)) {
        const char *word;

        if (r[0] > VARIADIC_ARGUMENT || (r[0] > MARK && r[1] > 2) || (r[0] > MARK && r[1] == 2 && (r[4] > 3 || r[5] > 1024)))
            return 2;
        if (r[0] > MARK && r[1] == 2)
            for (i = 0; i < r[5]; i++) {
                uint64_t piece[6];

                if (!read_record(piece) || piece[0] != PIECE)
                    return 2;
                memcpy(words + 4 * i, piece + 1, 4 * sizeof(uint64_t));
            }
        before = r[0] == FRESH ? 0 : a.next.stack;
        if (r[0] == FRESH)
            a = barkpaddle_fresh(r[1]), word = "fresh";
        else if (r[0] == MARK)
            a = barkpaddle_variadic(a.next.abi, a.next.integer, a.next.float_, a.next.integers_only, a.next.stack), word = "marked";
        else
            a = perform(r, a.next, slots, COUNT(slots)), word = a.outcome.way < COUNT(ways) ? ways[a.outcome.way] : "unknown";
        if (a.outcome.refusal != BARKPADDLE_ACCEPTED)
            word = "refused";
        printf("%s %llu %llu", word, (shown)a.next.integer, (shown)a.next.float_);
        printf(" %llu %llu", (shown)a.outcome.integers_passed, (shown)a.outcome.integers_given);
        printf(" %llu %llu", (shown)a.outcome.floats_passed, (shown)a.outcome.floats_given);
        if (a.outcome.refusal != BARKPADDLE_ACCEPTED)
            printf(" %llu", (shown)a.outcome.refusal);
        for (i = 0; i < a.outcome.slots; i++) {
            const uint64_t *slot = slots + BARKPADDLE_SLOT_WORDS * i;

            printf(" %llu:", (shown)slot[BARKPADDLE_SLOT_KIND]);
            printf("%llu:", (shown)slot[BARKPADDLE_SLOT_OFFSET]);
            printf("%llu", (shown)slot[BARKPADDLE_SLOT_SIZE]);
        }
        printf(" %llu %llu\n", (shown)before, (shown)a.next.stack);
    }
    return 0;
}

int main(int count, char **arguments)
{
    uint64_t row;

    if (count == 2 && strcmp(arguments[1], "rows") == 0) {
        for (row = 0; row < BARKPADDLE_ABI_COUNT; row++)
            print_row(row);
        return 0;
    }
    if (count == 2 && strcmp(arguments[1], "lookups") == 0) {
        print_lookups();
        return 0;
    }
    if (count == 2 && strcmp(arguments[1], "sheet") == 0)
        return print_sheet();
    fprintf(stderr, "usage: lines rows | lines lookups | lines sheet <SHEET\n");
    return 2;
}
