/*
 * types_lines <SHEET: flattens each case of a sheet of types with barkpaddle_flatten, and prints a line of what it answers:
 *
 *     refused 10
 *     size 24 align 4 pieces 0:1:1:0 0:4:4:4
 *
 * A piece is kind:size:alignment:offset; with no piece the line ends after the word `pieces`.
 *
 * A sheet is 64-bit words, lowest byte first. Each case has three lengths in words, of its types, of its members and of the buffer, then
 * the words of the types, then those of the members. The sheet ends behind a case. What has no words is lent as NULL.
 *
 * Status 2 says that the sheet can't be read: a case is cut short, or one of its lengths is above MOST_WORDS. Status 1 says that an answer
 * can't be: a list is changed, or a word of the buffer that is no piece's; a refusal has another number than 0 beside it; there are more
 * pieces than the buffer has room for. Standard error has the case and what is wrong with it; the lines of those before it stand.
 */
#include <stdarg.h>
#include <stdio.h>
#include <stdlib.h>
#include <string.h>

#include "barkpaddle.h"

#define MOST_WORDS 4128

typedef unsigned long long shown; /* for printf, which has no plain way to show a uint64_t in C99 without inttypes.h */

/* What a case has. The words of its buffer aren't on the sheet: they are the same in each case. */
enum part { TYPES, MEMBERS, BUFFER, PARTS };

static const char *const names[PARTS] = {"types", "members", "buffer"};
static uint64_t lengths[PARTS];
static uint64_t given[PARTS][MOST_WORDS], lent[PARTS][MOST_WORDS];

static uint64_t cases, bytes_read, case_start;

static void stop(int status, const char *what, ...)
{
    va_list numbers;

    fflush(stdout);
    fprintf(stderr, "types_lines: case %llu, from byte %llu on: ", (shown)cases, (shown)case_start);
    va_start(numbers, what);
    vfprintf(stderr, what, numbers);
    va_end(numbers);
    fprintf(stderr, "\n");
    exit(status);
}

/* ---- reading ---- */

/* Whether there are so many words. */
static int read_words(uint64_t *words, uint64_t count)
{
    static unsigned char bytes[8 * MOST_WORDS];
    size_t got = fread(bytes, 1, 8 * count, stdin);
    uint64_t i;
    int byte;

    bytes_read += got;
    if (ferror(stdin))
        stop(2, "byte %llu can't be read", (shown)bytes_read);
    if (got < 8 * count)
        return 0;
    for (i = 0; i < count; i++)
        for (words[i] = 0, byte = 7; byte >= 0; byte--)
            words[i] = words[i] << 8 | bytes[8 * i + byte];
    return 1;
}

/* Whether there is a case: the sheet may end before its first byte alone. */
static int read_case(void)
{
    int part;

    cases++;
    case_start = bytes_read;
    if (!read_words(lengths, PARTS)) {
        if (bytes_read > case_start)
            stop(2, "the sheet ends in its lengths, at byte %llu", (shown)bytes_read);
        return 0;
    }
    for (part = 0; part < PARTS; part++)
        if (lengths[part] > MOST_WORDS)
            stop(2, "its %s would have %llu words, more than %d", names[part], (shown)lengths[part], MOST_WORDS);
    for (part = 0; part < BUFFER; part++)
        if (!read_words(given[part], lengths[part]))
            stop(2, "the sheet ends in its %s, at byte %llu", names[part], (shown)bytes_read);
    return 1;
}

/* ---- asking ---- */

static uint64_t *lent_part(int part)
{
    memcpy(lent[part], given[part], lengths[part] * sizeof(uint64_t));
    return lengths[part] == 0 ? NULL : lent[part];
}

static void check_unchanged(int part, uint64_t from)
{
    uint64_t i;

    for (i = from; i < lengths[part]; i++)
        if (lent[part][i] != given[part][i])
            stop(1, "word %llu of its %s was changed to %llu", (shown)i, names[part], (shown)lent[part][i]);
}

static void check_answer(barkpaddle_flat flat)
{
    if (flat.refusal != BARKPADDLE_ACCEPTED && (flat.pieces | flat.size | flat.align) != 0)
        stop(1, "refused %llu, but not all other numbers are 0", (shown)flat.refusal);
    if (flat.pieces > lengths[BUFFER] / BARKPADDLE_PIECE_WORDS)
        stop(1, "%llu pieces for a buffer of %llu words", (shown)flat.pieces, (shown)lengths[BUFFER]);
    check_unchanged(TYPES, 0);
    check_unchanged(MEMBERS, 0);
    check_unchanged(BUFFER, BARKPADDLE_PIECE_WORDS * flat.pieces);
}

static void print_line(barkpaddle_flat flat)
{
    uint64_t i;

    if (flat.refusal != BARKPADDLE_ACCEPTED) {
        printf("refused %llu\n", (shown)flat.refusal);
        return;
    }
    printf("size %llu align %llu pieces", (shown)flat.size, (shown)flat.align);
    for (i = 0; i < flat.pieces; i++) {
        const uint64_t *piece = lent[BUFFER] + BARKPADDLE_PIECE_WORDS * i;

        printf(" %llu:%llu", (shown)piece[BARKPADDLE_PIECE_KIND], (shown)piece[BARKPADDLE_PIECE_SIZE]);
        printf(":%llu:%llu", (shown)piece[BARKPADDLE_PIECE_ALIGN], (shown)piece[BARKPADDLE_PIECE_OFFSET]);
    }
    printf("\n");
}

int main(void)
{
    uint64_t i;

    for (i = 0; i < MOST_WORDS; i++)
        given[BUFFER][i] = UINT64_C(0xA5A5A5A500000000) + i;
    while (read_case()) {
        barkpaddle_flat flat = barkpaddle_flatten(
            lent_part(TYPES), lengths[TYPES], lent_part(MEMBERS), lengths[MEMBERS], lent_part(BUFFER), lengths[BUFFER]);

        check_answer(flat);
        print_line(flat);
    }
    return 0;
}
