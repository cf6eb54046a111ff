/* What the entries cost that decide nothing: the same numbers in, the same checks, an answer of fourteen words out, and one fixed way in place
   of the rules. `bench/run --floor` puts them in the library's place, to tell what of a figure is the interface's and not the classifier's. */
#include <stdint.h>

typedef uint64_t u64;

typedef struct {
    u64 abi, integer, float_, integers_only, stack;
} call;

typedef struct {
    u64 refusal, way, integers_passed, integers_given, floats_passed, floats_given, slots, stack_at, stack_bytes;
} outcome;

typedef struct {
    call next;
    outcome outcome;
} answer;

typedef struct {
    u64 refusal, area, start, length, integer, float_, overflow;
} part;

typedef struct {
    u64 refusal, pieces, size, align;
} flat;

enum { DIRECT = 1, MEMORY = 4 };

enum { SAVE = 1 };

enum { BAD_ABI = 1, BAD_CALL, BAD_LIST, BAD_KIND, BAD_SIZE, BAD_ALIGN, NO_ROOM, BAD_AREA, BAD_EXTENT };

/* how many descriptions there are, the registers that each starts with, and the one that takes the mark */
enum { DESCRIPTIONS = 33 };
static const uint8_t integers[DESCRIPTIONS] = {6, 8, 8, 8, 4, 8, 0, 1, 2, 3, 0, 1, 2, 3, 0, 1, 2, 3, 0, 1, 2, 3, 2, 2, 0, 0, 0, 2, 0, 2, 8, 8, 8};
static const uint8_t floats[DESCRIPTIONS] = {8, 8, 8, 8, 0, 8, [31] = 8, [32] = 8};
static const u64 marked = 3;

/* the most bytes on the stack */
static const u64 most_stack = (u64)1 << 40;

#define REFUSE_IF(test, number)                                                                                                                \
    if (test)                                                                                                                                  \
        return (answer){{abi, integer, float_, mark, stack}, {number}};

#define CHECK_CALL                                                                                                                             \
    REFUSE_IF(abi >= DESCRIPTIONS, BAD_ABI)                                                                                                    \
    REFUSE_IF(integer > integers[abi] || float_ > floats[abi] || stack > most_stack || (mark && abi != marked), BAD_CALL)

answer barkpaddle_fresh(u64 abi) {
    if (abi >= DESCRIPTIONS)
        return (answer){{0}, {BAD_ABI}};
    return (answer){{abi, integers[abi], floats[abi]}, {0}};
}

answer barkpaddle_argument_scalar(u64 abi, u64 integer, u64 float_, u64 mark, u64 stack, u64 kind, u64 size, u64 align, u64 *slots, u64 length) {
    CHECK_CALL
    REFUSE_IF(kind > 4, BAD_KIND)
    REFUSE_IF(size > 64, BAD_SIZE)
    REFUSE_IF(align > 4096, BAD_ALIGN)
    u64 given = integer > 0;
    return (answer){{abi, integer - given, float_, mark, stack}, {.way = DIRECT, .integers_given = given}};
}

answer barkpaddle_argument_aggregate(u64 abi, u64 integer, u64 float_, u64 mark, u64 stack, u64 size, u64 align, u64 complex, u64 floating, const u64 *words, u64 count, u64 *slots, u64 length) {
    CHECK_CALL
    REFUSE_IF(count % 4 || count > 4096, BAD_LIST)
    REFUSE_IF(size > 1 << 24, BAD_SIZE)
    REFUSE_IF(align > 4096, BAD_ALIGN)
    u64 reach = 0;
    for (u64 at = 0; at < count; at += 4) {
        REFUSE_IF(words[at] > 4, BAD_KIND)
        REFUSE_IF(words[at + 1] > 64 || words[at + 3] > 1 << 24, BAD_SIZE)
        REFUSE_IF(words[at + 2] > 4096, BAD_ALIGN)
        u64 end = words[at + 1] + words[at + 3];
        reach = reach < end ? end : reach;
    }
    REFUSE_IF(reach > size, BAD_EXTENT)
    REFUSE_IF(length < 6, NO_ROOM) /* two slots */
    return (answer){{abi, integer, float_, mark, stack}, {.way = MEMORY}};
}

#define NO_PART_IF(test, number)                                                                                                               \
    if (test)                                                                                                                                  \
        return (part){number, 0, 0, 0, integer, float_, overflow};

part barkpaddle_read_scalar(const uint8_t *save, u64 save_length, const uint8_t *area, u64 length, u64 integer, u64 float_, u64 overflow, u64 kind, u64 size, u64 align) {
    NO_PART_IF(kind > 4, BAD_KIND)
    NO_PART_IF(size > 16, BAD_SIZE)
    NO_PART_IF(align != size, BAD_ALIGN)
    NO_PART_IF(save_length != 176 || integer > 48 || integer % 8 || float_ < 48 || float_ > 176 || float_ % 16 || length < overflow + size, BAD_AREA)
    return (part){0, SAVE, integer, size, integer + 8, float_, overflow};
}

/* Not asked: to know what a list of types is refused for is to flatten it, all but the writing. */
flat barkpaddle_flatten(const u64 *types, u64 types_length, const u64 *members, u64 members_length, u64 *pieces, u64 length) {
    return (flat){BAD_LIST};
}
