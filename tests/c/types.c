/*
 * Flattens lists of types with barkpaddle_flatten, good ones and refused ones, and checks each number of each answer, every word of the
 * lent buffer, and that no word of the two lists is changed.
 *
 * What is expected was worked out by hand from the rules of docs/REFERENCE.md, 4.5, and never comes from barkpaddle_flatten. Of a record of
 * scalars barkpaddle_pieces and barkpaddle_record are asked, too; and what was flattened is handed to barkpaddle_argument_aggregate.
 *
 * Prints how many checks passed. What fails is said with its place, and the exit status is 1.
 */
#include <stdio.h>
#include <string.h>
#include <time.h>

#include "barkpaddle.h"
#include "checks.h"

/* ---- lists ---- */

/* The fourth word of an entry holds anything. */
#define UNREAD UINT64_MAX

#define SCALAR(kind, size, align) kind, size, align, UNREAD
#define INTEGER(size, align) SCALAR(BARKPADDLE_KIND_INTEGER, size, align)
#define RECORD(first, count) BARKPADDLE_ENTRY_RECORD, first, count, UNREAD
#define UNION(first, count) BARKPADDLE_ENTRY_UNION, first, count, UNREAD
#define ARRAY(element, count) BARKPADDLE_ENTRY_ARRAY, element, count, UNREAD

#define BYTE INTEGER(1, 1)
#define INT4 INTEGER(4, 4)
#define INT8 INTEGER(8, 8)

typedef struct list {
    const uint64_t *types;
    uint64_t types_length;
    const uint64_t *members;
    uint64_t members_length;
} list;

static list list_of(const uint64_t *types, uint64_t types_length, const uint64_t *members, uint64_t members_length)
{
    list l;

    l.types = types;
    l.types_length = types_length;
    l.members = members;
    l.members_length = members_length;
    return l;
}

#define LIST(types, members) list_of(types, COUNT(types), members, COUNT(members))
#define ALONE(types) list_of(types, COUNT(types), NULL, 0)

/* More words than the largest list and the largest result have. */
#define MOST_WORDS 4200

/* A list that is put together entry by entry. */
static uint64_t built_types[MOST_WORDS], built_members[MOST_WORDS];
static uint64_t built_words, built_places;

static void start(void)
{
    built_words = 0;
    built_places = 0;
}

/* The number of the entry that is added. */
static uint64_t add(uint64_t kind, uint64_t second, uint64_t third)
{
    uint64_t *entry = built_types + built_words;

    entry[0] = kind;
    entry[1] = second;
    entry[2] = third;
    entry[3] = UNREAD;
    built_words += BARKPADDLE_ENTRY_WORDS;
    return built_words / BARKPADDLE_ENTRY_WORDS - 1;
}

static uint64_t add_byte(void)
{
    return add(BARKPADDLE_KIND_INTEGER, 1, 1);
}

/* Adds the same member so many times. */
static void add_members(uint64_t number, uint64_t times)
{
    for (; times > 0; times--)
        built_members[built_places++] = number;
}

/* A record or a union of the members that were added last. */
static uint64_t add_of_last(uint64_t kind, uint64_t count)
{
    return add(kind, built_places - count, count);
}

static uint64_t add_of_two(uint64_t kind, uint64_t first, uint64_t second)
{
    add_members(first, 1);
    add_members(second, 1);
    return add_of_last(kind, 2);
}

static list built(void)
{
    return list_of(built_types, built_words, built_members, built_places);
}

/* ---- asking ---- */

static uint64_t lent_types[MOST_WORDS], lent_members[MOST_WORDS], lent[MOST_WORDS];

static void copy(uint64_t *to, const uint64_t *from, uint64_t count)
{
    if (count > 0)
        memcpy(to, from, count * sizeof *to);
}

static int differ(const uint64_t *one, const uint64_t *other, uint64_t count)
{
    return count > 0 && memcmp(one, other, count * sizeof *one) != 0;
}

/* Into the front of `lent`, which nobody has written to before. What has no words is lent as NULL. */
static barkpaddle_flat flatten(const char *place, list l, uint64_t room)
{
    barkpaddle_flat flat;
    uint64_t i;

    for (i = 0; i < MOST_WORDS; i++)
        lent[i] = untouched(i);
    copy(lent_types, l.types, l.types_length);
    copy(lent_members, l.members, l.members_length);
    flat = barkpaddle_flatten(
        l.types_length == 0 ? NULL : lent_types, l.types_length, l.members_length == 0 ? NULL : lent_members, l.members_length,
        room == 0 ? NULL : lent, room);
    check_number(place, "a difference in the types", 0, differ(lent_types, l.types, l.types_length));
    check_number(place, "a difference in the members", 0, differ(lent_members, l.members, l.members_length));
    return flat;
}

static void check_numbers(const char *place, barkpaddle_flat got, uint64_t refusal, uint64_t pieces, uint64_t size, uint64_t align)
{
    check_number(place, "refusal", refusal, got.refusal);
    check_number(place, "pieces", pieces, got.pieces);
    check_number(place, "size", size, got.size);
    check_number(place, "align", align, got.align);
}

/* The front of the buffer holds these words, and all behind them is as it was. */
static void check_lent(const char *place, const uint64_t *words, uint64_t count)
{
    uint64_t i;

    for (i = 0; i < count; i++)
        check_number(place, "a word of the pieces", words[i], lent[i]);
    while (i < MOST_WORDS && lent[i] == untouched(i))
        i++;
    check_number(place, "the first changed word behind the pieces, or the buffer's end,", MOST_WORDS, i);
}

static void show(list l, uint64_t room)
{
    uint64_t i;

    printf("    a buffer of %llu words; types:", (unsigned long long)room);
    for (i = 0; i < l.types_length && i < 64; i++)
        if (i % BARKPADDLE_ENTRY_WORDS != 3)
            printf("%s %llu", i > 0 && i % BARKPADDLE_ENTRY_WORDS == 0 ? "," : "", (unsigned long long)l.types[i]);
    printf("%s; members:", i < l.types_length ? " .." : "");
    for (i = 0; i < l.members_length && i < 32; i++)
        printf(" %llu", (unsigned long long)l.members[i]);
    printf("%s\n", i < l.members_length ? " .." : "");
}

/* A refused list: its number, all else 0, and no word of the buffer is changed. */
static void check_refused_in(const char *place, list l, uint64_t room, uint64_t refusal)
{
    unsigned long failed_before = failed;

    check_numbers(place, flatten(place, l, room), refusal, 0, 0, 0);
    check_lent(place, NULL, 0);
    if (failed > failed_before && failed <= 40)
        show(l, room);
}

/* Refused so whether there is room or not. */
static void check_refused(const char *place, list l, uint64_t refusal)
{
    check_refused_in(place, l, 0, refusal);
    check_refused_in(place, l, MOST_WORDS, refusal);
}

/* What a list is flattened to. */
typedef struct type {
    uint64_t size, align;
    const uint64_t *pieces;
    uint64_t count;
} type;

static type type_of(uint64_t size, uint64_t align, const uint64_t *pieces, uint64_t count)
{
    type t;

    t.size = size;
    t.align = align;
    t.pieces = pieces;
    t.count = count;
    return t;
}

/* In a buffer that has room all the pieces are written, and in a smaller one it is NO_ROOM. */
static void check_in_room(const char *place, list l, uint64_t room, type expected)
{
    unsigned long failed_before = failed;

    if (room / BARKPADDLE_PIECE_WORDS < expected.count) {
        check_refused_in(place, l, room, BARKPADDLE_NO_ROOM);
        return;
    }
    check_numbers(place, flatten(place, l, room), BARKPADDLE_ACCEPTED, expected.count, expected.size, expected.align);
    check_lent(place, expected.pieces, BARKPADDLE_PIECE_WORDS * expected.count);
    if (failed > failed_before && failed <= 40)
        show(l, room);
}

/* What was written last is a shape of this size and alignment that every description takes. */
static void check_shape(const char *place, type t)
{
    uint64_t slots[BARKPADDLE_MOST_SLOT_WORDS];
    uint64_t row;

    for (row = 0; row < BARKPADDLE_ABI_COUNT; row++) {
        barkpaddle_call c = barkpaddle_fresh(row).next;
        barkpaddle_answer a = barkpaddle_argument_aggregate(
            c.abi, c.integer, c.float_, c.integers_only, c.stack, t.size, t.align, 0, 0, lent, BARKPADDLE_PIECE_WORDS * t.count, slots,
            BARKPADDLE_MOST_SLOT_WORDS);

        check_number(place, "an operation's refusal", BARKPADDLE_ACCEPTED, a.outcome.refusal);
    }
}

/* An accepted list, in a buffer of no word, of about as many as its pieces have, and in one that is larger than any needs. */
static void check_flat(const char *place, list l, type expected)
{
    uint64_t words = BARKPADDLE_PIECE_WORDS * expected.count;
    uint64_t room;

    check_in_room(place, l, 0, expected);
    for (room = words < 5 ? 0 : words - 5; room <= words + 5; room++)
        check_in_room(place, l, room, expected);
    check_in_room(place, l, MOST_WORDS, expected);
    check_shape(place, expected);
}

#define FLAT(place, l, size, align, pieces) \
    check_flat(place, l, type_of(size, align, pieces, COUNT(pieces) / BARKPADDLE_PIECE_WORDS))
#define EMPTY(place, l, size, align) check_flat(place, l, type_of(size, align, NULL, 0))

/* Pieces of one scalar, one behind the other. */
static uint64_t run_words[MOST_WORDS];

static const uint64_t *run(uint64_t size, uint64_t align, uint64_t count, uint64_t apart)
{
    uint64_t i;

    for (i = 0; i < count; i++) {
        uint64_t *piece = run_words + BARKPADDLE_PIECE_WORDS * i;

        piece[BARKPADDLE_PIECE_KIND] = BARKPADDLE_KIND_INTEGER;
        piece[BARKPADDLE_PIECE_SIZE] = size;
        piece[BARKPADDLE_PIECE_ALIGN] = align;
        piece[BARKPADDLE_PIECE_OFFSET] = apart * i;
    }
    return run_words;
}

static const uint64_t one_byte[] = {0, 1, 1, 0};

/* ---- layouts ---- */

/* struct { char tag; int value; } [3] */
static void example(void)
{
    static const uint64_t types[] = {BYTE, INT4, RECORD(0, 2), ARRAY(2, 3)}, members[] = {0, 1};
    static const uint64_t pieces[] = {0, 1, 1, 0, 0, 4, 4, 4, 0, 1, 1, 8, 0, 4, 4, 12, 0, 1, 1, 16, 0, 4, 4, 20};
    uint64_t other_words[COUNT(types)];
    uint64_t i;

    FLAT("the example", LIST(types, members), 24, 4, pieces);
    for (i = 0; i < COUNT(types); i++)
        other_words[i] = i % BARKPADDLE_ENTRY_WORDS == 3 ? i : types[i];
    FLAT("the example, other fourth words", LIST(other_words, members), 24, 4, pieces);
}

/* A scalar that is wanted by itself: its size is its end, rounded up. */
static void scalars(void)
{
    static const uint64_t wide[] = {INTEGER(12, 16)}, wide_piece[] = {0, 12, 16, 0};
    static const uint64_t no_size[] = {INTEGER(0, 1)}, no_size_piece[] = {0, 0, 1, 0};
    static const uint64_t no_align[] = {INTEGER(5, 0)}, no_align_piece[] = {0, 5, 0, 0};
    static const uint64_t nothing[] = {INTEGER(0, 0)}, nothing_piece[] = {0, 0, 0, 0};
    static const uint64_t aligned_nothing[] = {INTEGER(0, 8)}, aligned_nothing_piece[] = {0, 0, 8, 0};
    static const uint64_t by_three[] = {INTEGER(4, 3)}, by_three_piece[] = {0, 4, 3, 0};
    static const uint64_t largest[] = {SCALAR(4, 64, 4096)}, largest_piece[] = {4, 64, 4096, 0};
    uint64_t kind;

    FLAT("12 aligned to 16", ALONE(wide), 16, 16, wide_piece);
    FLAT("size 0", ALONE(no_size), 1, 1, no_size_piece);
    FLAT("alignment 0", ALONE(no_align), 5, 1, no_align_piece);
    FLAT("size and alignment 0", ALONE(nothing), 1, 1, nothing_piece);
    FLAT("size 0 aligned to 8", ALONE(aligned_nothing), 8, 8, aligned_nothing_piece);
    FLAT("4 aligned to 3", ALONE(by_three), 6, 3, by_three_piece);
    FLAT("the largest scalar", ALONE(largest), 4096, 4096, largest_piece);
    for (kind = 0; kind < 5; kind++) {
        const uint64_t types[] = {SCALAR(kind, 8, 8)}, pieces[] = {kind, 8, 8, 0};

        FLAT("each kind", ALONE(types), 8, 8, pieces);
    }
}

/* A scalar moves the next member on by its own size, any other type by its rounded one. */
static void records(void)
{
    static const uint64_t both[] = {0, 1}, twice[] = {0, 0};
    static const uint64_t padded[] = {BYTE, INT8, RECORD(0, 2)}, padded_pieces[] = {0, 1, 1, 0, 0, 8, 8, 8};
    static const uint64_t wide[] = {INTEGER(12, 16), BYTE, RECORD(0, 2)}, wide_pieces[] = {0, 12, 16, 0, 0, 1, 1, 12};
    static const uint64_t inside[] = {INTEGER(12, 16), BYTE, RECORD(0, 1), RECORD(1, 2)}, inside_members[] = {0, 2, 1};
    static const uint64_t inside_pieces[] = {0, 12, 16, 0, 0, 1, 1, 16};
    static const uint64_t no_size[] = {INTEGER(0, 1), BYTE, RECORD(0, 2)}, no_size_pieces[] = {0, 0, 1, 0, 0, 1, 1, 0};
    static const uint64_t no_sizes[] = {INTEGER(0, 1), RECORD(0, 2)}, no_sizes_pieces[] = {0, 0, 1, 0, 0, 0, 1, 0};
    static const uint64_t lone[] = {INTEGER(0, 1), RECORD(0, 1)}, lone_pieces[] = {0, 0, 1, 0};
    static const uint64_t at_end[] = {BYTE, INTEGER(0, 4), RECORD(0, 2)}, at_end_pieces[] = {0, 1, 1, 0, 0, 0, 4, 4};
    static const uint64_t no_aligns[] = {INTEGER(4, 0), INTEGER(1, 0), RECORD(0, 2)}, no_aligns_pieces[] = {0, 4, 0, 0, 0, 1, 0, 4};
    static const uint64_t one_align[] = {BYTE, INTEGER(4, 0), INTEGER(2, 2), RECORD(0, 3)}, three[] = {0, 1, 2};
    static const uint64_t one_align_pieces[] = {0, 1, 1, 0, 0, 4, 0, 1, 0, 2, 2, 6};
    static const uint64_t by_three[] = {BYTE, INTEGER(3, 3), RECORD(0, 2)}, by_three_pieces[] = {0, 1, 1, 0, 0, 3, 3, 3};
    /* the furthest end is the first member's: the second is at 0, and has no byte */
    static const uint64_t then_nothing[] = {INTEGER(0, 1), RECORD(0, 0), RECORD(0, 2)};

    FLAT("a byte and 8", LIST(padded, both), 16, 8, padded_pieces);
    FLAT("12 aligned to 16, then a byte", LIST(wide, both), 16, 16, wide_pieces);
    FLAT("a record of that, then a byte", LIST(inside, inside_members), 32, 16, inside_pieces);
    FLAT("size 0, then a byte", LIST(no_size, both), 1, 1, no_size_pieces);
    FLAT("size 0 twice", LIST(no_sizes, twice), 1, 1, no_sizes_pieces);
    FLAT("size 0 alone", LIST(lone, twice), 1, 1, lone_pieces);
    FLAT("size 0 at the end", LIST(at_end, both), 8, 4, at_end_pieces);
    FLAT("size 0, then nothing", LIST(then_nothing, both), 1, 1, lone_pieces);
    FLAT("alignments of 0", LIST(no_aligns, both), 5, 1, no_aligns_pieces);
    FLAT("an alignment of 0 between others", LIST(one_align, three), 8, 2, one_align_pieces);
    FLAT("3 aligned to 3", LIST(by_three, both), 6, 3, by_three_pieces);
}

/* All members at 0, each with its pieces, in order. */
static void unions(void)
{
    static const uint64_t three[] = {0, 1, 2};
    static const uint64_t plain[] = {BYTE, INT4, INTEGER(6, 2), UNION(0, 3)}, plain_pieces[] = {0, 1, 1, 0, 0, 4, 4, 0, 0, 6, 2, 0};
    static const uint64_t records[] = {BYTE, INT4, RECORD(0, 2), UNION(2, 3)}, records_members[] = {0, 1, 0, 2, 1};
    static const uint64_t records_pieces[] = {0, 1, 1, 0, 0, 1, 1, 0, 0, 4, 4, 4, 0, 4, 4, 0};
    static const uint64_t same[] = {SCALAR(2, 8, 8), UNION(0, 2)}, same_members[] = {0, 0}, same_pieces[] = {2, 8, 8, 0, 2, 8, 8, 0};
    static const uint64_t no_size[] = {INTEGER(0, 2), UNION(0, 1)}, no_size_pieces[] = {0, 0, 2, 0};

    FLAT("a union", LIST(plain, three), 8, 4, plain_pieces);
    FLAT("a record in a union", LIST(records, records_members), 8, 4, records_pieces);
    FLAT("one entry twice", LIST(same, same_members), 8, 8, same_pieces);
    FLAT("a union of size 0 aligned to 2", LIST(no_size, three), 2, 2, no_size_pieces);
}

/* Elements are a rounded size apart, scalars too; one of size 0 is as far apart as its end says. */
static void arrays(void)
{
    static const uint64_t wide[] = {INTEGER(12, 16), ARRAY(0, 3)}, wide_pieces[] = {0, 12, 16, 0, 0, 12, 16, 16, 0, 12, 16, 32};
    static const uint64_t no_size[] = {INTEGER(0, 1), ARRAY(0, 3)}, no_size_pieces[] = {0, 0, 1, 0, 0, 0, 1, 1, 0, 0, 1, 2};
    static const uint64_t aligned[] = {INTEGER(0, 4), ARRAY(0, 2)}, aligned_pieces[] = {0, 0, 4, 0, 0, 0, 4, 4};
    static const uint64_t no_align[] = {INTEGER(3, 0), ARRAY(0, 2)}, no_align_pieces[] = {0, 3, 0, 0, 0, 3, 0, 3};
    static const uint64_t by_three[] = {INTEGER(4, 3), ARRAY(0, 2)}, by_three_pieces[] = {0, 4, 3, 0, 0, 4, 3, 6};
    static const uint64_t one[] = {INT4, ARRAY(0, 1)}, one_pieces[] = {0, 4, 4, 0};
    static const uint64_t two_by_two[] = {INTEGER(2, 4), ARRAY(0, 2), ARRAY(1, 2)};
    static const uint64_t then[] = {INTEGER(12, 16), ARRAY(0, 1), BYTE, RECORD(0, 2)}, then_members[] = {1, 2};
    static const uint64_t then_pieces[] = {0, 12, 16, 0, 0, 1, 1, 16};

    FLAT("three of 12 aligned to 16", ALONE(wide), 48, 16, wide_pieces);
    FLAT("three of size 0", ALONE(no_size), 3, 1, no_size_pieces);
    FLAT("two of size 0 aligned to 4", ALONE(aligned), 8, 4, aligned_pieces);
    FLAT("two of alignment 0", ALONE(no_align), 6, 1, no_align_pieces);
    FLAT("two of 4 aligned to 3", ALONE(by_three), 12, 3, by_three_pieces);
    FLAT("an array of one", ALONE(one), 4, 4, one_pieces);
    check_flat("two arrays of two", ALONE(two_by_two), type_of(16, 4, run(2, 4, 4, 4), 4));
    FLAT("an array, then a byte", LIST(then, then_members), 32, 16, then_pieces);
}

/* No members and no elements. An array of 0 has its element's alignment all the same, and where it stands is an end. */
static void nothing_inside(void)
{
    static const uint64_t first_two[] = {0, 1}, behind[] = {0, 2}, before[] = {2, 0};
    static const uint64_t record[] = {RECORD(0, 0)}, unread_first[] = {RECORD(UINT64_MAX, 0)}, union_[] = {UNION(UINT64_MAX, 0)};
    static const uint64_t in_record[] = {RECORD(7, 0), RECORD(0, 1)}, in_union[] = {RECORD(7, 0), UNION(0, 1)};
    static const uint64_t in_array[] = {UNION(7, 0), ARRAY(0, 1024)};
    static const uint64_t none[] = {INT4, ARRAY(0, 0)}, none_of_none[] = {INT8, ARRAY(0, 0), ARRAY(1, 0)};
    static const uint64_t many_of_none[] = {INT8, ARRAY(0, 0), ARRAY(1, 1024)};
    static const uint64_t flexible[] = {BYTE, INT4, ARRAY(1, 0), RECORD(0, 2)}, union_of[] = {BYTE, INT4, ARRAY(1, 0), UNION(0, 2)};
    static const uint64_t between[] = {RECORD(9, 0), BYTE, RECORD(0, 3)}, between_members[] = {1, 0, 1};
    static const uint64_t between_pieces[] = {0, 1, 1, 0, 0, 1, 1, 1};
    static const uint64_t moved[] = {INT4, ARRAY(0, 0), BYTE, RECORD(0, 3)}, moved_members[] = {2, 1, 2};
    static const uint64_t moved_pieces[] = {0, 1, 1, 0, 0, 1, 1, 4};
    /* at 4 and at 6, and it is 6 that is rounded up to a multiple of 4 */
    static const uint64_t far_end[] = {BYTE, INT4, ARRAY(1, 0), INTEGER(3, 3), ARRAY(3, 0), RECORD(0, 3)}, far_end_members[] = {0, 2, 4};

    EMPTY("a record of nothing", LIST(record, first_two), 0, 1);
    EMPTY("a record of nothing, its first member unread", ALONE(unread_first), 0, 1);
    EMPTY("a union of nothing", ALONE(union_), 0, 1);
    EMPTY("a record of a record of nothing", LIST(in_record, first_two), 0, 1);
    EMPTY("a union of a record of nothing", LIST(in_union, first_two), 0, 1);
    EMPTY("an array of unions of nothing", ALONE(in_array), 0, 1);
    EMPTY("an array of 0", ALONE(none), 0, 4);
    EMPTY("an array of 0 arrays of 0", ALONE(none_of_none), 0, 8);
    EMPTY("an array of arrays of 0", ALONE(many_of_none), 0, 8);
    FLAT("a byte and an array of 0", LIST(flexible, behind), 4, 4, one_byte);
    FLAT("an array of 0 and a byte", LIST(flexible, before), 4, 4, one_byte);
    FLAT("a union of a byte and an array of 0", LIST(union_of, behind), 4, 4, one_byte);
    FLAT("nothing between two bytes", LIST(between, between_members), 2, 1, between_pieces);
    FLAT("an array of 0 between two bytes", LIST(moved, moved_members), 8, 4, moved_pieces);
    FLAT("two arrays of 0 behind a byte", LIST(far_end, far_end_members), 8, 4, one_byte);
}

/* Offsets add up, alignments are handed up, and pieces come in the order of the members, whatever their offsets. */
static void inside_each_other(void)
{
    static const uint64_t aligned[] = {BYTE, INT8, RECORD(0, 2), RECORD(2, 2)}, aligned_members[] = {0, 1, 0, 2};
    static const uint64_t aligned_pieces[] = {0, 1, 1, 0, 0, 1, 1, 8, 0, 8, 8, 16};
    static const uint64_t by_six[] = {BYTE, INT4, INTEGER(6, 6), RECORD(0, 2), RECORD(2, 2)}, by_six_members[] = {1, 2, 0, 3};
    static const uint64_t by_six_pieces[] = {0, 1, 1, 0, 0, 4, 4, 6, 0, 6, 6, 12};
    /* a union of 2 and { byte, 4 }; behind a byte; twice; between a 2 and a byte */
    static const uint64_t deep[] = {BYTE,         INTEGER(2, 2), INT4,        RECORD(0, 2),
                                    UNION(2, 2),  RECORD(4, 2),  ARRAY(5, 2), RECORD(6, 3)};
    static const uint64_t deep_members[] = {0, 2, 1, 3, 0, 4, 1, 6, 0};
    static const uint64_t deep_pieces[] = {0, 2, 2, 0, 0, 1, 1, 4,  0, 2, 2, 8,  0, 1, 1, 8,  0, 4, 4, 12,
                                           0, 1, 1, 16, 0, 2, 2, 20, 0, 1, 1, 20, 0, 4, 4, 24, 0, 1, 1, 28};
    static const uint64_t shared[] = {BYTE, INT4, RECORD(0, 2), UNION(1, 2)}, shared_members[] = {0, 1, 2};
    static const uint64_t shared_pieces[] = {0, 4, 4, 0, 0, 1, 1, 0, 0, 4, 4, 4};
    static const uint64_t unreached[] = {INT8, RECORD(0, 1), ARRAY(1, 7), BYTE}, unreached_members[] = {0};

    FLAT("a record in a record", LIST(aligned, aligned_members), 24, 8, aligned_pieces);
    FLAT("a record aligned to 6", LIST(by_six, by_six_members), 18, 6, by_six_pieces);
    FLAT("all forms", LIST(deep, deep_members), 32, 4, deep_pieces);
    FLAT("a member of two", LIST(shared, shared_members), 8, 4, shared_pieces);
    FLAT("only the last is wanted", LIST(unreached, unreached_members), 1, 1, one_byte);
}

/* ---- as pieces and record have it ---- */

static const uint64_t some_scalars[][3] = {{0, 0, 0}, {0, 0, 1},   {0, 0, 4}, {0, 1, 1},   {0, 3, 0},
                                           {1, 4, 4}, {0, 12, 16}, {2, 8, 8}, {3, 10, 3}, {4, 64, 4096}};

/* The entries of `some_scalars`, and a record of the members that are there. */
static list record_of_scalars(const uint64_t *members, uint64_t count)
{
    uint64_t i;

    start();
    for (i = 0; i < COUNT(some_scalars); i++)
        add(some_scalars[i][0], some_scalars[i][1], some_scalars[i][2]);
    for (i = 0; i < count; i++)
        add_members(members[i], 1);
    add_of_last(BARKPADDLE_ENTRY_RECORD, count);
    return built();
}

/* A record of scalars has the pieces that barkpaddle_pieces makes, and the size and alignment that barkpaddle_record answers. That refuses
 * pieces whose alignments are all 0; here each of them counts as 1. */
static void check_against_record(const uint64_t *members, uint64_t count)
{
    uint64_t words[3 * 3], pieces[4 * 3];
    barkpaddle_flat flat = flatten("a record of scalars", record_of_scalars(members, count), MOST_WORDS);
    barkpaddle_record_shape shape;
    uint64_t i;

    for (i = 0; i < count; i++)
        copy(words + 3 * i, some_scalars[members[i]], 3);
    check_number("a record of scalars", "barkpaddle_pieces", count, barkpaddle_pieces(words, 3 * count, pieces, 4 * count).value);
    check_lent("a record of scalars", pieces, 4 * count);
    shape = barkpaddle_record(pieces, 4 * count);
    if (shape.refusal == BARKPADDLE_ACCEPTED) {
        check_numbers("a record of scalars", flat, BARKPADDLE_ACCEPTED, count, shape.size, shape.align);
        return;
    }
    check_number("alignments of 0", "barkpaddle_record", BARKPADDLE_BAD_ALIGN, shape.refusal);
    for (i = 0; i < count; i++)
        pieces[4 * i + BARKPADDLE_PIECE_ALIGN] = 1;
    shape = barkpaddle_record(pieces, 4 * count);
    check_numbers("alignments of 0", flat, BARKPADDLE_ACCEPTED, count, shape.size, 1);
}

/* Each record of up to three of them. */
static void records_of_scalars(void)
{
    uint64_t members[3];
    uint64_t count, n, rest, all = 1;
    int i;

    for (count = 0; count <= 3; count++) {
        for (n = 0; n < all; n++) {
            for (i = 0, rest = n; i < 3; i++, rest /= COUNT(some_scalars))
                members[i] = rest % COUNT(some_scalars);
            check_against_record(members, count);
        }
        all *= COUNT(some_scalars);
    }
}

/* ---- limits ---- */

/* As many scalars as there may be, and one more, which doesn't fit any buffer. */
static void leaves(void)
{
    static const uint64_t forms[] = {BARKPADDLE_ENTRY_RECORD, BARKPADDLE_ENTRY_UNION};
    static const uint64_t squared[] = {BYTE, ARRAY(0, 32), ARRAY(1, 32)}, more[] = {BYTE, ARRAY(0, 33), ARRAY(1, 32)};
    uint64_t array, twice;
    size_t i;

    start();
    array = add(BARKPADDLE_ENTRY_ARRAY, add_byte(), 1024);
    check_flat("1,024 elements", built(), type_of(1024, 1, run(1, 1, 1024, 1), 1024));
    add_of_two(BARKPADDLE_ENTRY_RECORD, array, 0);
    check_refused("1,024 elements and a byte", built(), BARKPADDLE_NO_ROOM);
    check_flat("32 times 32", ALONE(squared), type_of(1024, 1, run(1, 1, 1024, 1), 1024));
    check_refused("33 times 32", ALONE(more), BARKPADDLE_NO_ROOM);
    for (i = 0; i < COUNT(forms); i++) {
        int in_union = forms[i] == BARKPADDLE_ENTRY_UNION;

        start();
        add_members(add_byte(), 1024);
        add_of_last(forms[i], 1024);
        check_flat("1,024 members", built(), type_of(in_union ? 1 : 1024, 1, run(1, 1, 1024, !in_union), 1024));
        add_members(0, 1);
        add_of_last(forms[i], 1025);
        check_refused("1,025 members", built(), BARKPADDLE_NO_ROOM);
    }
    start();
    for (twice = add_byte(); twice < 10;)
        twice = add_of_two(BARKPADDLE_ENTRY_RECORD, twice, twice);
    check_flat("doubled ten times", built(), type_of(1024, 1, run(1, 1, 1024, 1), 1024));
    add_of_two(BARKPADDLE_ENTRY_RECORD, twice, twice);
    check_refused("doubled eleven times", built(), BARKPADDLE_NO_ROOM);
}

/* What isn't in the wanted type, or in it 0 times, may have any number of scalars. */
static void leaves_of_others(void)
{
    static const uint64_t unreached[] = {BYTE, ARRAY(0, 1024), ARRAY(1, 1024), BYTE};
    static const uint64_t none[] = {BYTE, ARRAY(0, 1024), ARRAY(1, 1024), ARRAY(2, 0)};
    static const uint64_t beside[] = {BYTE, ARRAY(0, 1024), ARRAY(1, 1024), ARRAY(2, 0), RECORD(0, 2)}, members[] = {3, 0};

    FLAT("a million beside it", ALONE(unreached), 1, 1, one_byte);
    EMPTY("a million, 0 times", ALONE(none), 0, 1);
    FLAT("a million, 0 times, and a byte", LIST(beside, members), 1, 1, one_byte);
}

/* An entry that is refused, behind a byte and a record of nothing, be it wanted or not. */
static void check_entry(const char *place, uint64_t kind, uint64_t second, uint64_t third, uint64_t refusal)
{
    const uint64_t types[] = {BYTE, RECORD(0, 0), kind, second, third, UNREAD, BYTE};

    check_refused(place, list_of(types, COUNT(types) - BARKPADDLE_ENTRY_WORDS, NULL, 0), refusal);
    check_refused(place, ALONE(types), refusal);
}

/* Above the limits by one and by more, and where a number would be small in a byte or in four. */
static void numbers_past_limits(void)
{
    static const uint64_t kind[] = {SCALAR(5, 65, 4097)}, size[] = {SCALAR(4, 65, 4097)}, align[] = {SCALAR(4, 64, 4097)};
    static const uint64_t kinds[] = {5, 6, 255, 259, 260, 512, UINT64_C(1) << 32, (UINT64_C(1) << 32) + 256, (UINT64_C(1) << 32) + 257,
                                     (UINT64_C(1) << 32) + 258, UINT64_C(1) << 63, UINT64_MAX};
    static const uint64_t sizes[] = {65, 256, 1024, (UINT64_C(1) << 32) + 4, UINT64_C(1) << 63, UINT64_MAX};
    static const uint64_t aligns[] = {4097, 8192, (UINT64_C(1) << 32) + 4, UINT64_C(1) << 63, UINT64_MAX};
    static const uint64_t counts[] = {1025, 4096, UINT64_C(1) << 32, (UINT64_C(1) << 32) + 1, UINT64_C(1) << 63, UINT64_MAX};
    size_t i;

    check_refused("a kind alone", ALONE(kind), BARKPADDLE_BAD_KIND);
    check_refused("a size alone", ALONE(size), BARKPADDLE_BAD_SIZE);
    check_refused("an alignment alone", ALONE(align), BARKPADDLE_BAD_ALIGN);
    for (i = 0; i < COUNT(kinds); i++) {
        check_entry("a kind", kinds[i], 0, 0, BARKPADDLE_BAD_KIND);
        check_entry("a kind that refers to nothing", kinds[i], UINT64_MAX, 4, BARKPADDLE_BAD_KIND);
    }
    for (i = 0; i < COUNT(sizes); i++) {
        check_entry("a size", BARKPADDLE_KIND_INTEGER, sizes[i], 4096, BARKPADDLE_BAD_SIZE);
        check_entry("a size and an alignment", BARKPADDLE_KIND_QUAD, sizes[i], 4097, BARKPADDLE_BAD_SIZE);
    }
    for (i = 0; i < COUNT(aligns); i++)
        check_entry("an alignment", BARKPADDLE_KIND_QUAD, 64, aligns[i], BARKPADDLE_BAD_ALIGN);
    for (i = 0; i < COUNT(counts); i++) {
        check_entry("a count", BARKPADDLE_ENTRY_ARRAY, 0, counts[i], BARKPADDLE_BAD_SIZE);
        check_entry("a count of nothing", BARKPADDLE_ENTRY_ARRAY, 1, counts[i], BARKPADDLE_BAD_SIZE);
    }
}

/* Each entry's own size, before the number of its scalars. 16 bytes, 1,024 times 1,024, are just the limit. */
static void sizes_past_limits(void)
{
    static const uint64_t cubed[] = {BYTE, ARRAY(0, 1024), ARRAY(1, 1024), ARRAY(2, 1024)};
    static const uint64_t wide[] = {INTEGER(64, 64), ARRAY(0, 1024), ARRAY(1, 1024)};
    static const uint64_t at_limit[] = {INTEGER(16, 16), ARRAY(0, 1024), ARRAY(1, 1024)};
    static const uint64_t past[] = {INTEGER(16, 16), ARRAY(0, 1024), ARRAY(1, 1024), BYTE, RECORD(0, 2)}, two[] = {2, 3};
    static const uint64_t rounded[] = {INTEGER(16, 16), ARRAY(0, 1024), ARRAY(1, 1024), INTEGER(1, 4096), RECORD(0, 2)};
    static const uint64_t in_union[] = {INTEGER(16, 16), ARRAY(0, 1024), ARRAY(1, 1024), INTEGER(1, 48), UNION(0, 2)};
    static const uint64_t unreached[] = {BYTE, ARRAY(0, 1024), ARRAY(1, 1024), ARRAY(2, 17), BYTE};
    static const uint64_t none[] = {BYTE, ARRAY(0, 1024), ARRAY(1, 1024), ARRAY(2, 17), ARRAY(3, 0)};
    static const uint64_t largest[] = {BYTE, ARRAY(0, 1024), ARRAY(1, 1024), ARRAY(2, 16), BYTE};

    check_refused("a byte under three arrays", ALONE(cubed), BARKPADDLE_BAD_SIZE);
    check_refused("64 bytes under two arrays", ALONE(wide), BARKPADDLE_BAD_SIZE);
    check_refused("16 bytes under two arrays", ALONE(at_limit), BARKPADDLE_NO_ROOM);
    check_refused("those and a byte", LIST(past, two), BARKPADDLE_BAD_SIZE);
    check_refused("those and an aligned byte", LIST(rounded, two), BARKPADDLE_BAD_SIZE);
    check_refused("a union that is rounded past the limit", LIST(in_union, two), BARKPADDLE_BAD_SIZE);
    check_refused("a size that isn't in the wanted type", ALONE(unreached), BARKPADDLE_BAD_SIZE);
    check_refused("a size that is in it 0 times", ALONE(none), BARKPADDLE_BAD_SIZE);
    FLAT("the largest size beside it", ALONE(largest), 1, 1, one_byte);
}

/* The largest size with as many scalars as there may be: 1,024 records of 16,384 bytes, of which each has one. Arrays of 0 that are aligned
 * to 4,096 and to 4,095 in turn make room in them: the last of six stands at 16,380. */
static void largest_type(void)
{
    uint64_t none[2], i, record, array;

    start();
    add_byte();
    none[0] = add(BARKPADDLE_ENTRY_ARRAY, add(BARKPADDLE_KIND_INTEGER, 1, 4096), 0);
    none[1] = add(BARKPADDLE_ENTRY_ARRAY, add(BARKPADDLE_KIND_INTEGER, 1, 4095), 0);
    add_members(0, 1);
    for (i = 0; i < 6; i++)
        add_members(none[i % 2], 1);
    record = add_of_last(BARKPADDLE_ENTRY_RECORD, 7);
    FLAT("a record of 16,384", built(), 16384, 4096, one_byte);
    array = add(BARKPADDLE_ENTRY_ARRAY, record, 1024);
    check_flat("the largest type", built(), type_of(16777216, 4096, run(1, 1, 1024, 16384), 1024));
    add_of_two(BARKPADDLE_ENTRY_RECORD, array, none[0]);
    check_flat("the largest type and nothing", built(), type_of(16777216, 4096, run(1, 1, 1024, 16384), 1024));
    add_of_two(BARKPADDLE_ENTRY_RECORD, array, 0);
    check_refused("the largest type and a byte", built(), BARKPADDLE_BAD_SIZE);
}

/* ---- lists that are none ---- */

/* 1,023 entries of 8 bytes, then a byte. */
static void most_entries(void)
{
    uint64_t i;

    start();
    for (i = 0; i < 1023; i++)
        add(BARKPADDLE_KIND_INTEGER, 8, 8);
    add_byte();
    FLAT("1,024 entries", built(), 1, 1, one_byte);
    add_byte();
    check_refused("1,025 entries", built(), BARKPADDLE_BAD_LIST);
    add_byte();
    check_refused("1,026 entries", built(), BARKPADDLE_BAD_LIST);
}

/* Members that no entry has may hold anything; the last place is one as the others are. */
static void most_members(void)
{
    static const uint64_t byte[] = {BYTE}, last[] = {BYTE, RECORD(4095, 1)}, behind[] = {BYTE, RECORD(4096, 1)};
    uint64_t i;

    for (i = 0; i < MOST_WORDS; i++)
        built_members[i] = UINT64_MAX;
    FLAT("4,096 members", list_of(byte, COUNT(byte), built_members, 4096), 1, 1, one_byte);
    check_refused("4,097 members", list_of(byte, COUNT(byte), built_members, 4097), BARKPADDLE_BAD_LIST);
    check_refused("4,098 members", list_of(byte, COUNT(byte), built_members, 4098), BARKPADDLE_BAD_LIST);
    built_members[4095] = 0;
    FLAT("the last member", list_of(last, COUNT(last), built_members, 4096), 1, 1, one_byte);
    check_refused("behind the last member", list_of(behind, COUNT(behind), built_members, 4096), BARKPADDLE_BAD_TYPE);
    start();
    add_members(add_byte(), 4096);
    add_of_last(BARKPADDLE_ENTRY_UNION, 4096);
    check_refused("a union of 4,096 members", built(), BARKPADDLE_NO_ROOM);
    built_types[0] = BARKPADDLE_ENTRY_RECORD;
    built_types[2] = 0;
    EMPTY("4,096 members of nothing", built(), 0, 1);
}

static void bad_lists(void)
{
    static const uint64_t two[] = {BYTE, INT8};
    static const uint64_t any[] = {0, UINT64_MAX};
    uint64_t length;

    check_refused("no entry, no members", list_of(NULL, 0, NULL, 0), BARKPADDLE_BAD_LIST);
    check_refused("no entry", list_of(NULL, 0, any, COUNT(any)), BARKPADDLE_BAD_LIST);
    for (length = 1; length <= COUNT(two); length++)
        if (length % BARKPADDLE_ENTRY_WORDS != 0)
            check_refused("parts of an entry", list_of(two, length, any, COUNT(any)), BARKPADDLE_BAD_LIST);
    most_entries();
    most_members();
}

/* ---- references ---- */

/* Numbers that are no entry before entry 2 of four: itself, a later one, none, and what would be entry 0 in a byte or in four. */
static const uint64_t no_earlier[] = {
    2, 3, 4, 5, 255, 256, UINT64_C(1) << 32, (UINT64_C(1) << 32) + 1, UINT64_C(1) << 63, UINT64_MAX - 1, UINT64_MAX};

static void bad_elements(void)
{
    static const uint64_t own[] = {ARRAY(0, 1)}, own_of_0[] = {ARRAY(0, 0)}, next[] = {ARRAY(1, 1), BYTE};
    static const uint64_t counts[] = {1, 0, 1024, 1025, UINT64_MAX};
    size_t i, k;

    check_refused("entry 0 of itself", ALONE(own), BARKPADDLE_BAD_TYPE);
    check_refused("entry 0, 0 times itself", ALONE(own_of_0), BARKPADDLE_BAD_TYPE);
    check_refused("entry 0 of the next", ALONE(next), BARKPADDLE_BAD_TYPE);
    for (i = 0; i < COUNT(no_earlier); i++)
        for (k = 0; k < COUNT(counts); k++) {
            const uint64_t types[] = {BYTE, BYTE, ARRAY(no_earlier[i], counts[k]), BYTE};

            check_refused("an element", ALONE(types), BARKPADDLE_BAD_TYPE);
        }
}

/* The first, the second or the last of three members; the places before and behind them nobody reads. */
static void bad_members(void)
{
    static const uint64_t forms[] = {BARKPADDLE_ENTRY_RECORD, BARKPADDLE_ENTRY_UNION}, good[] = {UINT64_MAX, 0, 1, 0, UINT64_MAX};
    size_t form, i, place;

    for (form = 0; form < COUNT(forms); form++) {
        const uint64_t own[] = {forms[form], 0, 1, UNREAD}, next[] = {forms[form], 1, 1, UNREAD, BYTE}, numbers[] = {0, 1};
        const uint64_t types[] = {BYTE, BYTE, forms[form], 1, 3, UNREAD, BYTE};

        check_refused("entry 0 with itself", LIST(own, numbers), BARKPADDLE_BAD_TYPE);
        check_refused("entry 0 with the next", LIST(next, numbers), BARKPADDLE_BAD_TYPE);
        FLAT("three good members", LIST(types, good), 1, 1, one_byte);
        for (i = 0; i < COUNT(no_earlier); i++)
            for (place = 1; place <= 3; place++) {
                uint64_t members[COUNT(good)];

                copy(members, good, COUNT(good));
                members[place] = no_earlier[i];
                check_refused("a member", LIST(types, members), BARKPADDLE_BAD_TYPE);
            }
    }
}

/* Members that aren't all in the list, which has three places; in some the last place would be a small number, if a sum might wrap. */
static void members_past_the_end(void)
{
    static const uint64_t spans[][2] = {
        {0, 4},
        {1, 3},
        {2, 2},
        {3, 1},
        {4, 1},
        {3, UINT64_MAX},
        {0, UINT64_MAX},
        {1, UINT64_MAX},
        {2, UINT64_MAX},
        {0, UINT64_C(1) << 32},
        {0, (UINT64_C(1) << 32) + 1},
        {UINT64_C(1) << 32, 1},
        {UINT64_C(1) << 63, UINT64_C(1) << 63},
        {UINT64_C(1) << 63, (UINT64_C(1) << 63) + 1},
        {UINT64_MAX, 1},
        {UINT64_MAX, 2},
        {UINT64_MAX, 4},
        {UINT64_MAX - 1, 3},
        {UINT64_MAX, UINT64_MAX}};
    static const uint64_t forms[] = {BARKPADDLE_ENTRY_RECORD, BARKPADDLE_ENTRY_UNION}, members[] = {0, 0, 0};
    size_t form, i;

    for (form = 0; form < COUNT(forms); form++) {
        const uint64_t whole[] = {BYTE, forms[form], 0, 3, UNREAD, BYTE}, one[] = {BYTE, forms[form], 0, 1, UNREAD};

        FLAT("all three members", LIST(whole, members), 1, 1, one_byte);
        check_refused("a member of no list", ALONE(one), BARKPADDLE_BAD_TYPE);
        for (i = 0; i < COUNT(spans); i++) {
            const uint64_t wanted[] = {BYTE, forms[form], spans[i][0], spans[i][1], UNREAD};
            const uint64_t unreached[] = {BYTE, forms[form], spans[i][0], spans[i][1], UNREAD, BYTE};

            check_refused("members past the end", LIST(wanted, members), BARKPADDLE_BAD_TYPE);
            check_refused("members past the end, not wanted", LIST(unreached, members), BARKPADDLE_BAD_TYPE);
        }
    }
}

/* ---- levels ---- */

/* The forms that a level can have: an array of 1, of 0 or of 1,024, or the only member of a record or a union. */
typedef struct form {
    uint64_t kind, count;
} form;

static const form array_of_1 = {BARKPADDLE_ENTRY_ARRAY, 1}, array_of_0 = {BARKPADDLE_ENTRY_ARRAY, 0};
static const form array_of_1024 = {BARKPADDLE_ENTRY_ARRAY, 1024};
static const form record_of_1 = {BARKPADDLE_ENTRY_RECORD, 1}, union_of_1 = {BARKPADDLE_ENTRY_UNION, 1};

static uint64_t add_level(form f, uint64_t inside)
{
    if (f.kind == BARKPADDLE_ENTRY_ARRAY)
        return add(f.kind, inside, f.count);
    add_members(inside, 1);
    return add_of_last(f.kind, 1);
}

/* So many levels of one form upon an entry. */
static uint64_t add_levels(form f, uint64_t inside, uint64_t levels)
{
    for (; levels > 0; levels--)
        inside = add_level(f, inside);
    return inside;
}

/* Sixteen levels of a form and seventeen, upon a scalar, upon nothing, and upon a kind that is none; none of them is an array of 1,024. */
static void levels_of_a_form(form f)
{
    start();
    add_levels(f, add_byte(), 15);
    check_flat("sixteen levels", built(), type_of(f.count, 1, one_byte, f.count));
    add_level(f, 15);
    check_refused("seventeen levels", built(), BARKPADDLE_TOO_DEEP);
    add_byte();
    FLAT("seventeen levels that aren't wanted", built(), 1, 1, one_byte);
    start();
    add_levels(f, add(BARKPADDLE_ENTRY_UNION, UINT64_MAX, 0), 15);
    EMPTY("sixteen levels with nothing", built(), 0, 1);
    add_level(f, 15);
    check_refused("seventeen levels with nothing", built(), BARKPADDLE_TOO_DEEP);
    start();
    add_levels(f, add(5, 0, 0), 15);
    check_refused("sixteen levels upon a kind", built(), BARKPADDLE_BAD_KIND);
    add_level(f, 15);
    check_refused("seventeen levels upon a kind", built(), BARKPADDLE_TOO_DEEP);
}

/* As many levels as a list has entries. */
static void most_levels(form f)
{
    start();
    add_levels(f, add_byte(), 1023);
    check_refused("1,024 levels", built(), BARKPADDLE_TOO_DEEP);
    start();
    add_levels(f, add_byte(), 1022);
    add_byte();
    FLAT("1,023 levels that aren't wanted", built(), 1, 1, one_byte);
}

/* All levels are records but for one array of 0, which hides no level, wherever it stands. */
static void levels_behind_an_array_of_0(void)
{
    uint64_t below;

    for (below = 0; below < 15; below++) {
        uint64_t array;

        start();
        array = add_level(array_of_0, add_levels(record_of_1, add_byte(), below));
        add_levels(record_of_1, array, 14 - below);
        EMPTY("sixteen levels, one an array of 0", built(), 0, 1);
        add_level(record_of_1, 15);
        check_refused("seventeen levels, one an array of 0", built(), BARKPADDLE_TOO_DEEP);
    }
}

/* The deepest member counts, be it the first or the second. */
static void levels_of_members(uint64_t kind, int swapped)
{
    uint64_t apart = kind == BARKPADDLE_ENTRY_RECORD ? 1 : 0;
    uint64_t deep;

    start();
    deep = add_levels(array_of_1, add_byte(), 14);
    add_of_two(kind, swapped ? 0 : deep, swapped ? deep : 0);
    check_flat("fifteen levels in a member", built(), type_of(1 + apart, 1, run(1, 1, 2, apart), 2));
    deep = add_level(array_of_1, deep);
    add_of_two(kind, swapped ? 0 : deep, swapped ? deep : 0);
    check_refused("sixteen levels in a member", built(), BARKPADDLE_TOO_DEEP);
}

static void levels(void)
{
    const form forms[] = {array_of_1, array_of_0, record_of_1, union_of_1};
    size_t i;
    int swapped;

    for (i = 0; i < COUNT(forms); i++) {
        levels_of_a_form(forms[i]);
        most_levels(forms[i]);
    }
    levels_behind_an_array_of_0();
    for (swapped = 0; swapped < 2; swapped++) {
        levels_of_members(BARKPADDLE_ENTRY_RECORD, swapped);
        levels_of_members(BARKPADDLE_ENTRY_UNION, swapped);
    }
}

/* ---- which refusal goes first ---- */

/* What can be wrong with a list and its buffer. */
enum fault { PARTS, ENTRIES, MEMBERS, OWN, LATER, NO_ENTRY, PAST_END, DEEP, KIND, SIZE, ELEMENTS, OWN_SIZE, ALIGN, LEAVES, ROOM, FAULTS };

/* What it is refused for, and in which stage it is looked for: where two have the same stage the one that stands first in the list is. */
static const struct about {
    uint64_t refusal;
    int stage;
} about[FAULTS] = {
    {BARKPADDLE_BAD_LIST, 0},  /* PARTS */
    {BARKPADDLE_BAD_LIST, 0},  /* ENTRIES */
    {BARKPADDLE_BAD_LIST, 0},  /* MEMBERS */
    {BARKPADDLE_BAD_TYPE, 1},  /* OWN */
    {BARKPADDLE_BAD_TYPE, 1},  /* LATER */
    {BARKPADDLE_BAD_TYPE, 1},  /* NO_ENTRY */
    {BARKPADDLE_BAD_TYPE, 1},  /* PAST_END */
    {BARKPADDLE_TOO_DEEP, 2},  /* DEEP */
    {BARKPADDLE_BAD_KIND, 3},  /* KIND */
    {BARKPADDLE_BAD_SIZE, 3},  /* SIZE */
    {BARKPADDLE_BAD_SIZE, 3},  /* ELEMENTS */
    {BARKPADDLE_BAD_SIZE, 3},  /* OWN_SIZE */
    {BARKPADDLE_BAD_ALIGN, 3}, /* ALIGN */
    {BARKPADDLE_NO_ROOM, 4},   /* LEAVES */
    {BARKPADDLE_NO_ROOM, 4}    /* ROOM */
};

/* The bad entry of a fault, if it is one. Entry 0 is a byte, entry 1 has 1,024 of them, entry 2 has 1,024 of these. */
static void add_fault(int fault)
{
    uint64_t number = built_words / BARKPADDLE_ENTRY_WORDS;

    switch (fault) {
    case OWN:
        add(BARKPADDLE_ENTRY_ARRAY, number, 0);
        break;
    case LATER:
        add(BARKPADDLE_ENTRY_ARRAY, number + 1, 1);
        break;
    case NO_ENTRY:
        add_members(UINT64_MAX, 1);
        add_of_last(BARKPADDLE_ENTRY_UNION, 1);
        break;
    case PAST_END:
        add(BARKPADDLE_ENTRY_RECORD, UINT64_MAX, 1);
        break;
    case KIND:
        add(5, 65, 4097);
        break;
    case SIZE:
        add(BARKPADDLE_KIND_QUAD, 65, 4097);
        break;
    case ELEMENTS:
        add(BARKPADDLE_ENTRY_ARRAY, 0, 1025);
        break;
    case OWN_SIZE:
        add(BARKPADDLE_ENTRY_ARRAY, 2, 17);
        break;
    case ALIGN:
        add(BARKPADDLE_KIND_QUAD, 64, 4097);
        break;
    }
}

#define EITHER(fault) (one == (fault) || other == (fault))

/* A list with two faults, the entry of the first before that of the second. Without any it is a byte under fifteen arrays of 1. */
static list list_with(int one, int other)
{
    uint64_t wanted;
    list l;

    start();
    add(BARKPADDLE_ENTRY_ARRAY, add_byte(), 1024);
    add(BARKPADDLE_ENTRY_ARRAY, 1, 1024);
    add_fault(one);
    add_fault(other);
    while (EITHER(ENTRIES) && built_words < BARKPADDLE_ENTRY_WORDS * BARKPADDLE_MOST_ENTRIES)
        add_byte();
    wanted = EITHER(LEAVES) ? add_of_two(BARKPADDLE_ENTRY_UNION, 0, 1) : add_levels(array_of_1, 0, 2);
    add_levels(array_of_1, wanted, EITHER(DEEP) ? 14 : 13);
    l = built();
    if (EITHER(PARTS))
        l.types_length++;
    if (EITHER(MEMBERS))
        l.members_length = BARKPADDLE_MOST_MEMBERS + 1;
    return l;
}

static void check_faults(int one, int other)
{
    uint64_t refusal = about[one].refusal;

    if (other != FAULTS && about[other].stage < about[one].stage)
        refusal = about[other].refusal;
    check_refused_in("faults", list_with(one, other), EITHER(ROOM) ? 3 : MOST_WORDS, refusal);
}

/* Each fault by itself, and each two at once. */
static void orders(void)
{
    int one, other;

    FLAT("no fault", list_with(FAULTS, FAULTS), 1, 1, one_byte);
    for (one = 0; one < FAULTS; one++)
        for (other = 0; other <= FAULTS; other++)
            if (one != other)
                check_faults(one, other);
}

/* ---- lists that would take long, if every scalar or every element were looked at ---- */

/* Unions inside each other: 1 byte, and more scalars than a word can count; of 256 members, their number would be 0 in a word. */
static void many_unions(uint64_t count)
{
    uint64_t inside, i;

    start();
    inside = add_byte();
    for (i = 0; i < 15; i++) {
        add_members(inside, count);
        inside = add_of_last(BARKPADDLE_ENTRY_UNION, count);
    }
    check_refused("fifteen unions", built(), BARKPADDLE_NO_ROOM);
    add(BARKPADDLE_ENTRY_ARRAY, 14, 0);
    EMPTY("fourteen unions, 0 times", built(), 0, 1);
}

/* 1,024 records of a byte behind 4,095 members that have no scalar, each of them so many arrays of 1,024 deep. */
static void many_empty_members(uint64_t levels_deep)
{
    uint64_t byte, empty;

    start();
    byte = add_byte();
    empty = add_levels(array_of_1024, add(BARKPADDLE_ENTRY_RECORD, 0, 0), levels_deep);
    add_members(empty, 4095);
    add_members(byte, 1);
    add_level(array_of_1024, add_of_last(BARKPADDLE_ENTRY_RECORD, 4096));
    check_flat("a byte behind 4,095 members of nothing", built(), type_of(1024, 1, run(1, 1, 1024, 1), 1024));
}

/* Eleven records that share 4,080 members of nothing. Each has a byte and all the records before it, so that the last has 1,024 bytes. */
static void many_shared_members(void)
{
    uint64_t byte, i;

    start();
    byte = add_byte();
    add_members(add(BARKPADDLE_ENTRY_UNION, 0, 0), 4080);
    add_members(byte, 1);
    for (i = 1; i <= 11; i++)
        add_members(add(BARKPADDLE_ENTRY_RECORD, 0, 4080 + i), 1);
    check_flat("records of all before them", built(), type_of(1024, 1, run(1, 1, 1024, 1), 1024));
}

static void many_arrays(void)
{
    start();
    add_levels(array_of_1024, add(BARKPADDLE_ENTRY_RECORD, 0, 0), 15);
    EMPTY("nothing under fifteen arrays", built(), 0, 1);
    start();
    add_levels(array_of_1024, add(BARKPADDLE_ENTRY_RECORD, 0, 0), 1023);
    check_refused("nothing under 1,023 arrays", built(), BARKPADDLE_TOO_DEEP);
    start();
    add_levels(array_of_1024, add(BARKPADDLE_ENTRY_RECORD, 0, 0), 1022);
    add_byte();
    FLAT("nothing under 1,022 arrays, not wanted", built(), 1, 1, one_byte);
}

static void worst_lists(void)
{
    clock_t before = clock();

    many_arrays();
    many_unions(273);
    many_unions(256);
    many_empty_members(0);
    many_empty_members(13);
    many_shared_members();
    check_number("the worst lists", "whether they take a minute", 0, (clock() - before) / CLOCKS_PER_SEC >= 60);
}

int main(void)
{
    /* so that what fails is said even where a later list never ends */
    setvbuf(stdout, NULL, _IOLBF, BUFSIZ);
    example();
    scalars();
    records();
    unions();
    arrays();
    nothing_inside();
    inside_each_other();
    records_of_scalars();
    leaves();
    leaves_of_others();
    numbers_past_limits();
    sizes_past_limits();
    largest_type();
    bad_lists();
    bad_elements();
    bad_members();
    members_past_the_end();
    levels();
    orders();
    worst_lists();
    printf("types: %lu checks passed, %lu failed\n", passed, failed);
    return failed != 0;
}
