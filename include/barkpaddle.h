/*
 * Barkpaddle: how each value of a call travels, on thirty-three calling conventions.
 *
 * Everything comes in and goes out as 64-bit numbers, called words. docs/REFERENCE.md has the rules; its sections 13 to 15 are about
 * these entries. They are proved: every entry answers every input, traps on none, allocates nothing, keeps no state and touches no memory
 * but what it is lent, so that calls from several threads need no care.
 *
 * Lists and buffers. A list of words or bytes is a pointer and how many there are; NULL may be handed over with the number 0, and
 * otherwise the pointer has to point to that many. A buffer that an entry writes to may not overlap another that the same call is
 * lent. An entry that writes puts its result at the front of the buffer; every word behind it keeps its value.
 *
 * Refusals. A refusal is a number, 0 where the input is accepted. An operation on a call has it in its outcome, as the first number there;
 * in every other answer that is a struct it is the first number of all. A refused operation hands back the call that it was handed (a
 * refused fresh one: all zeros; a refused read: the offsets that it was handed), answers 0 in every other number, and leaves every lent
 * buffer as it was. Where several refusals would apply, the first in the order given with the entry is answered.
 *
 * Yes and no. A number that stands for yes or no is a yes where it isn't 0. A yes that an entry answers is 1. The integers-only mark of a
 * call isn't answered but handed on: it comes back as the number that was handed in, whether the operation is refused or accepted. Only
 * an accepted barkpaddle_variadic or barkpaddle_bridge_variadic changes it: to 1, on a description that has the mark.
 *
 * Numbers to come. Later versions may add refusals, ways, kinds, conventions, descriptions and the codes of a description's fields; those
 * that are here keep their meaning. Kinds of scalars to come stay below 256: from there on a number is an entry's. A program that meets a
 * number it doesn't know should treat it as one that it can't handle.
 *
 * Names. Behind BARKPADDLE_ a macro's name has that of its group, but for refusals and limits. Comments leave BARKPADDLE_ out.
 */
#ifndef BARKPADDLE_H
#define BARKPADDLE_H

#include <stdint.h>

#ifdef __cplusplus
extern "C" {
#endif

/* ---- the version ---- */

/* The version of this header: one number, raised with each change of the header. A program that may be linked to an archive that was made
 * elsewhere compares it with barkpaddle_version() before it asks anything else. Where they differ the archive goes with another header: it
 * may lack what this one names, take other numbers, or answer what this one doesn't. Link the archive that tools/staticlib makes beside
 * this header. What entries take, and how structs are laid out, is promised from the first shipped version on; until then it may change
 * with this number, as it has with 7, where a description has a field more. */
#define BARKPADDLE_VERSION UINT64_C(7)

/* The version of the header that the archive goes with. Refuses nothing. */
uint64_t barkpaddle_version(void);

/* ---- numbers ---- */

/* "None", from an entry that looks something up. */
#define BARKPADDLE_NONE UINT64_MAX

/* The descriptions, numbered from 0 (REFERENCE 5.5); barkpaddle_name answers their names in full. REG_STRUCT is -freg-struct-return.
 * Compilers for RISC-V follow the three of RISCV_PSABI, by their option -mabi, and not RISCV_LP64D (docs/DIFFERENCES.md). */
#define BARKPADDLE_ABI_COUNT UINT64_C(33)
#define BARKPADDLE_ABI_SYSV_AMD64 UINT64_C(0)
#define BARKPADDLE_ABI_AAPCS64 UINT64_C(1)
#define BARKPADDLE_ABI_DARWIN_ARM64 UINT64_C(2)
#define BARKPADDLE_ABI_WINDOWS_ARM64 UINT64_C(3)
#define BARKPADDLE_ABI_WINDOWS_X64 UINT64_C(4)
#define BARKPADDLE_ABI_RISCV_LP64D UINT64_C(5)
#define BARKPADDLE_ABI_I386_SYSV UINT64_C(6)
#define BARKPADDLE_ABI_I386_SYSV_REGPARM_1 UINT64_C(7)
#define BARKPADDLE_ABI_I386_SYSV_REGPARM_2 UINT64_C(8)
#define BARKPADDLE_ABI_I386_SYSV_REGPARM_3 UINT64_C(9)
#define BARKPADDLE_ABI_I386_SYSV_REG_STRUCT UINT64_C(10)
#define BARKPADDLE_ABI_I386_SYSV_REGPARM_1_REG_STRUCT UINT64_C(11)
#define BARKPADDLE_ABI_I386_SYSV_REGPARM_2_REG_STRUCT UINT64_C(12)
#define BARKPADDLE_ABI_I386_SYSV_REGPARM_3_REG_STRUCT UINT64_C(13)
#define BARKPADDLE_ABI_I386_SYSV_STDCALL UINT64_C(14)
#define BARKPADDLE_ABI_I386_SYSV_REGPARM_1_STDCALL UINT64_C(15)
#define BARKPADDLE_ABI_I386_SYSV_REGPARM_2_STDCALL UINT64_C(16)
#define BARKPADDLE_ABI_I386_SYSV_REGPARM_3_STDCALL UINT64_C(17)
#define BARKPADDLE_ABI_I386_SYSV_REG_STRUCT_STDCALL UINT64_C(18)
#define BARKPADDLE_ABI_I386_SYSV_REGPARM_1_REG_STRUCT_STDCALL UINT64_C(19)
#define BARKPADDLE_ABI_I386_SYSV_REGPARM_2_REG_STRUCT_STDCALL UINT64_C(20)
#define BARKPADDLE_ABI_I386_SYSV_REGPARM_3_REG_STRUCT_STDCALL UINT64_C(21)
#define BARKPADDLE_ABI_I386_SYSV_FASTCALL UINT64_C(22)
#define BARKPADDLE_ABI_I386_SYSV_REG_STRUCT_FASTCALL UINT64_C(23)
#define BARKPADDLE_ABI_I386_MINGW UINT64_C(24)
#define BARKPADDLE_ABI_I386_MSVC UINT64_C(25)
#define BARKPADDLE_ABI_I386_MINGW_STDCALL UINT64_C(26)
#define BARKPADDLE_ABI_I386_MINGW_FASTCALL UINT64_C(27)
#define BARKPADDLE_ABI_I386_MSVC_STDCALL UINT64_C(28)
#define BARKPADDLE_ABI_I386_MSVC_FASTCALL UINT64_C(29)
#define BARKPADDLE_ABI_RISCV_PSABI_LP64 UINT64_C(30)
#define BARKPADDLE_ABI_RISCV_PSABI_LP64F UINT64_C(31)
#define BARKPADDLE_ABI_RISCV_PSABI_LP64D UINT64_C(32)

/* Refusals. */
#define BARKPADDLE_ACCEPTED UINT64_C(0)
#define BARKPADDLE_BAD_ABI UINT64_C(1)    /* there is no description of this number */
#define BARKPADDLE_BAD_CALL UINT64_C(2)   /* more registers left than there are, a mark where there is none, an offset above MOST_STACK */
#define BARKPADDLE_BAD_LIST UINT64_C(3)   /* the words don't make whole records, or too many; of types: or no entry, or too many members */
#define BARKPADDLE_BAD_KIND UINT64_C(4)   /* no kind has this number */
#define BARKPADDLE_BAD_SIZE UINT64_C(5)   /* a size, an offset or a count is above its limit; in a variable list: isn't the scalar's own */
#define BARKPADDLE_BAD_ALIGN UINT64_C(6)  /* an alignment is above its limit; in a record: all are 0; in a variable list: isn't the size */
#define BARKPADDLE_NO_ROOM UINT64_C(7)    /* the result doesn't fit the buffer, is above MOST_PIECES, or ends past MOST_STACK */
#define BARKPADDLE_BAD_AREA UINT64_C(8)   /* a save area or an offset into it that can't be, or an overflow area that ends too early */
#define BARKPADDLE_BAD_EXTENT UINT64_C(9) /* a piece ends past its aggregate's size */
#define BARKPADDLE_BAD_TYPE UINT64_C(10)  /* an entry refers to itself, to a later entry or to none */
#define BARKPADDLE_TOO_DEEP UINT64_C(11)  /* a type has more than sixteen levels */

/* Kinds of scalars, pieces and slots. Those but the integer's are also called formats. */
#define BARKPADDLE_KIND_INTEGER UINT64_C(0)
#define BARKPADDLE_KIND_SINGLE UINT64_C(1)
#define BARKPADDLE_KIND_DOUBLE UINT64_C(2)
#define BARKPADDLE_KIND_X87_EXTENDED UINT64_C(3)
#define BARKPADDLE_KIND_QUAD UINT64_C(4)
/* No format, in a description's fields and in barkpaddle_wide_integer_returns_in, which never have the integer's number. */
#define BARKPADDLE_KIND_NO_FORMAT UINT64_C(0)

/* Ways in which a value travels. */
#define BARKPADDLE_WAY_IGNORE UINT64_C(0)    /* nothing travels */
#define BARKPADDLE_WAY_DIRECT UINT64_C(1)    /* the value itself, in the registers that it was given, or on the stack */
#define BARKPADDLE_WAY_PIECES UINT64_C(2)    /* its bytes, in the slots that were written */
#define BARKPADDLE_WAY_REFERENCE UINT64_C(3) /* the address of a copy, or of the place for a result */
#define BARKPADDLE_WAY_MEMORY UINT64_C(4)    /* its bytes, in the argument area */

/* The words of a scalar; of a piece, which is a scalar inside an aggregate; of a slot, which is one register's worth of one; and of an
 * entry, which is a type in a list of types. */
#define BARKPADDLE_SCALAR_KIND 0
#define BARKPADDLE_SCALAR_SIZE 1
#define BARKPADDLE_SCALAR_ALIGN 2
#define BARKPADDLE_SCALAR_WORDS 3

#define BARKPADDLE_PIECE_KIND 0
#define BARKPADDLE_PIECE_SIZE 1
#define BARKPADDLE_PIECE_ALIGN 2
#define BARKPADDLE_PIECE_OFFSET 3
#define BARKPADDLE_PIECE_WORDS 4

#define BARKPADDLE_SLOT_KIND 0
#define BARKPADDLE_SLOT_OFFSET 1
#define BARKPADDLE_SLOT_SIZE 2 /* 0 for a float: its kind says it */
#define BARKPADDLE_SLOT_WORDS 3

#define BARKPADDLE_ENTRY_KIND 0    /* a scalar's kind, or one of the three below */
#define BARKPADDLE_ENTRY_SIZE 1    /* of a scalar */
#define BARKPADDLE_ENTRY_ALIGN 2   /* of a scalar */
#define BARKPADDLE_ENTRY_FIRST 1   /* of a record or a union: the place of its first member in the list of members, from 0 */
#define BARKPADDLE_ENTRY_ELEMENT 1 /* of an array: its element's entry */
#define BARKPADDLE_ENTRY_COUNT 2   /* of a record or a union: its members; of an array: its elements */
#define BARKPADDLE_ENTRY_WORDS 4   /* the fourth isn't read */

/* Kinds of entries that aren't scalars. */
#define BARKPADDLE_ENTRY_RECORD UINT64_C(256)
#define BARKPADDLE_ENTRY_UNION UINT64_C(257)
#define BARKPADDLE_ENTRY_ARRAY UINT64_C(258)

/* No result needs more slots than this, so a buffer of MOST_SLOT_WORDS words is never too small. */
#define BARKPADDLE_MOST_SLOTS 8
#define BARKPADDLE_MOST_SLOT_WORDS (BARKPADDLE_MOST_SLOTS * BARKPADDLE_SLOT_WORDS)

/* Forms of what is asked about a lent call: what a barkpaddle_what is. */
#define BARKPADDLE_FORM_VOID UINT64_C(0)
#define BARKPADDLE_FORM_SCALAR UINT64_C(1)
#define BARKPADDLE_FORM_AGGREGATE UINT64_C(2)

/* Limits: each of these numbers is still accepted. */
#define BARKPADDLE_LARGEST_SCALAR UINT64_C(64)        /* size of a scalar or a piece */
#define BARKPADDLE_LARGEST_SHAPE UINT64_C(16777216)   /* size of an aggregate, or of an entry that isn't a scalar */
#define BARKPADDLE_LARGEST_OFFSET UINT64_C(16777216)  /* offset of a piece */
#define BARKPADDLE_LARGEST_ALIGN UINT64_C(4096)       /* any alignment */
#define BARKPADDLE_MOST_PIECES UINT64_C(1024)         /* records of a list, or scalars in a type */
#define BARKPADDLE_MOST_ENTRIES UINT64_C(1024)        /* entries of a list of types */
#define BARKPADDLE_MOST_MEMBERS UINT64_C(4096)        /* words of a list of members */
#define BARKPADDLE_MOST_ELEMENTS UINT64_C(1024)       /* elements of an array */
#define BARKPADDLE_MOST_LEVELS UINT64_C(16)           /* levels of a type, a scalar counting as one */
#define BARKPADDLE_MOST_STACK UINT64_C(1099511627776) /* offset on the stack, and where a value ends there */

/* No description's and no attribute's name has more bytes than this. */
#define BARKPADDLE_MOST_NAME_BYTES 64

/* Areas of a variable argument list, and what the save area of description 0 has: where the integer places end, where the float places
 * start and end, and its bytes (REFERENCE 15). */
#define BARKPADDLE_AREA_NOWHERE UINT64_C(0)
#define BARKPADDLE_AREA_SAVE UINT64_C(1)
#define BARKPADDLE_AREA_OVERFLOW UINT64_C(2)
#define BARKPADDLE_AREA_GP_END UINT64_C(48)
#define BARKPADDLE_AREA_FP_START UINT64_C(48)
#define BARKPADDLE_AREA_FP_END UINT64_C(176)
#define BARKPADDLE_AREA_SAVE_BYTES UINT64_C(176)

/* Architectures. */
#define BARKPADDLE_ARCH_X86 UINT64_C(0)
#define BARKPADDLE_ARCH_X86_64 UINT64_C(1)
#define BARKPADDLE_ARCH_AARCH64 UINT64_C(2)
#define BARKPADDLE_ARCH_RISCV64 UINT64_C(3)
#define BARKPADDLE_ARCH_OTHER UINT64_C(4)

/* Systems. */
#define BARKPADDLE_SYSTEM_WINDOWS UINT64_C(0)
#define BARKPADDLE_SYSTEM_MACOS UINT64_C(1)
#define BARKPADDLE_SYSTEM_OTHER_DARWIN UINT64_C(2)
#define BARKPADDLE_SYSTEM_OTHER UINT64_C(3)

/* Conventions. */
#define BARKPADDLE_CONVENTION_TARGET UINT64_C(0) /* the target's own */
#define BARKPADDLE_CONVENTION_MS UINT64_C(1)
#define BARKPADDLE_CONVENTION_SYSV UINT64_C(2)
#define BARKPADDLE_CONVENTION_STDCALL UINT64_C(3)
#define BARKPADDLE_CONVENTION_FASTCALL UINT64_C(4)
#define BARKPADDLE_CONVENTION_NO_CALLEE_SAVED UINT64_C(5)
#define BARKPADDLE_CONVENTION_PRESERVE_NONE UINT64_C(6)
#define BARKPADDLE_CONVENTION_REGPARM(n) (UINT64_C(256) + (n)) /* n from 0 to 255 */

/* A description's fields, each by its own name (REFERENCE 5.4). */
#define BARKPADDLE_RETURN_POINTER_FIRST_ARGUMENT UINT64_C(0)
#define BARKPADDLE_RETURN_POINTER_FIRST_ARGUMENT_POPPED UINT64_C(1)
#define BARKPADDLE_RETURN_POINTER_DEDICATED UINT64_C(2)

#define BARKPADDLE_VARIADIC_SAME_AS_FIXED UINT64_C(0)
#define BARKPADDLE_VARIADIC_ALWAYS_MEMORY UINT64_C(1)
#define BARKPADDLE_VARIADIC_BOTH_BANKS UINT64_C(2)
#define BARKPADDLE_VARIADIC_INTEGERS_ONLY UINT64_C(3)
#define BARKPADDLE_VARIADIC_UNNAMED_INTEGERS UINT64_C(4)
#define BARKPADDLE_VARIADIC_UNNAMED_INTEGERS_EVEN UINT64_C(5) /* and aligned pairs of words start at an even register */

#define BARKPADDLE_STACK_ARGS_REGISTER_SIZED UINT64_C(0)
#define BARKPADDLE_STACK_ARGS_PACKED UINT64_C(1)

#define BARKPADDLE_NARROW_UNSPECIFIED UINT64_C(0)
#define BARKPADDLE_NARROW_TO_INT UINT64_C(1)
#define BARKPADDLE_NARROW_ARGS_TO_INT UINT64_C(2)

#define BARKPADDLE_BIT_INTS_SPARE_BITS UINT64_C(0)
#define BARKPADDLE_BIT_INTS_UNTAUGHT UINT64_C(1)

#define BARKPADDLE_CLEANUP_CALLER UINT64_C(0)
#define BARKPADDLE_CLEANUP_CALLEE UINT64_C(1)

/* A rule's test. The number beside it is a limit, four sizes (below), or 0 where the test has none. */
#define BARKPADDLE_TEST_NO_RULE UINT64_C(0) /* past the end of the list */
#define BARKPADDLE_TEST_ANYTHING UINT64_C(1)
#define BARKPADDLE_TEST_EMPTY UINT64_C(2)
#define BARKPADDLE_TEST_SIZE_ONE_OF UINT64_C(3)  /* four sizes */
#define BARKPADDLE_TEST_SIZE_AT_MOST UINT64_C(4) /* a limit in bytes */
#define BARKPADDLE_TEST_HOMOGENEOUS UINT64_C(5)  /* a limit in pieces */
#define BARKPADDLE_TEST_FLOAT_PAIR UINT64_C(6)
#define BARKPADDLE_TEST_X87_STACK UINT64_C(7)
#define BARKPADDLE_TEST_LONE_FLOAT UINT64_C(8)
#define BARKPADDLE_TEST_FLOATING_MODE UINT64_C(9)
#define BARKPADDLE_TEST_COMPLEX_FLOAT UINT64_C(10)
#define BARKPADDLE_TEST_EIGHTBYTES UINT64_C(11) /* a limit in bytes */
/* Size `i`, from 0 to 3, of the four in a test's number: two bits each, the first lowest, for 1, 2, 4 and 8. */
#define BARKPADDLE_TEST_SIZE(number, i) (UINT64_C(1) << (((number) >> (2 * (i))) & 3))

/* How an aggregate travels where the test matched. */
#define BARKPADDLE_TRAVEL_IGNORE UINT64_C(0)
#define BARKPADDLE_TRAVEL_AS_FOUND UINT64_C(1)
#define BARKPADDLE_TRAVEL_AS_INTEGERS UINT64_C(2)
#define BARKPADDLE_TRAVEL_AS_ONE_INTEGER UINT64_C(3)
#define BARKPADDLE_TRAVEL_BY_REFERENCE UINT64_C(4)
#define BARKPADDLE_TRAVEL_IN_MEMORY UINT64_C(5)
#define BARKPADDLE_TRAVEL_IN_MEMORY_AND_SPEND UINT64_C(6) /* an argument's words pass registers over: these carry nothing */

/* What happens where an argument's slots want more registers than are left. */
#define BARKPADDLE_SHORT_UNCHANGED UINT64_C(0)
#define BARKPADDLE_SHORT_MEMORY UINT64_C(1)
#define BARKPADDLE_SHORT_MEMORY_AND_DRAIN UINT64_C(2)
#define BARKPADDLE_SHORT_TRY_NEXT_RULE UINT64_C(3)
#define BARKPADDLE_SHORT_SPLIT UINT64_C(4) /* between the registers left and the stack; in memory, with no integer register left */

/* ---- calls and answers ---- */

/* A call. */
typedef struct barkpaddle_call {
    uint64_t abi;     /* its description */
    uint64_t integer; /* the registers left */
    uint64_t float_;
    uint64_t integers_only; /* the mark: yes or no */
    uint64_t stack;         /* the next stack offset: 0 at the start */
} barkpaddle_call;

/* How a value travels, or why it was refused. */
typedef struct barkpaddle_outcome {
    uint64_t refusal;
    uint64_t way;
    uint64_t integers_passed; /* registers that this value passed over, which carry nothing, and was given; it passes over first */
    uint64_t integers_given;
    uint64_t floats_passed;
    uint64_t floats_given;
    uint64_t slots;    /* how many slots were written */
    uint64_t stack_at; /* where on the stack this value's bytes stand, and how many they are; 0 and 0 where none of it is there */
    uint64_t stack_bytes;
} barkpaddle_outcome;

/* What an operation on a call answers; one on a lent call answers the outcome alone. */
typedef struct barkpaddle_answer {
    barkpaddle_call next; /* its five numbers are handed to the next operation, or it is lent to one */
    barkpaddle_outcome outcome;
} barkpaddle_answer;

/* A refusal, or one number. */
typedef struct barkpaddle_told {
    uint64_t refusal;
    uint64_t value;
} barkpaddle_told;

/* A refusal, or the shape of a record. */
typedef struct barkpaddle_record_shape {
    uint64_t refusal;
    uint64_t size;
    uint64_t align;
    uint64_t complex_;
    uint64_t floating;
} barkpaddle_record_shape;

/* A refusal, or what a type is beside the pieces that were written. */
typedef struct barkpaddle_flat {
    uint64_t refusal;
    uint64_t pieces; /* how many were written */
    uint64_t size;
    uint64_t align;
} barkpaddle_flat;

/* A refusal, or what a description says beside its rules and its name (REFERENCE 5.1, 5.2, 5.4). */
typedef struct barkpaddle_description_fields {
    uint64_t refusal;
    uint64_t integer;
    uint64_t float_;
    uint64_t shared;
    uint64_t integer_width;
    uint64_t float_width;
    uint64_t in_memory; /* a format */
    uint64_t wide_integer_is_all_or_nothing;
    uint64_t wide_integer_starts_even;
    uint64_t wide_integer_drains;
    uint64_t wide_is_by_reference;
    uint64_t wide_integer_returns_in; /* a format */
    uint64_t wide_integer_in_memory;
    uint64_t decimal_in_integers;
    uint64_t quad_returns_by_reference;
    uint64_t return_pointer;
    uint64_t variadic;
    uint64_t stack_args;
    uint64_t narrow;
    uint64_t bit_ints;
    uint64_t cleanup;
    uint64_t float_falls_to_integers; /* a float that finds no float register left takes integer registers */
} barkpaddle_description_fields;

/* A refusal, or a rule for aggregates (REFERENCE 5.3). */
typedef struct barkpaddle_rule {
    uint64_t refusal;
    uint64_t test;
    uint64_t number;
    uint64_t travel;
    uint64_t short_;
} barkpaddle_rule;

/* ---- a call and its operations ----
 *
 * A call is five numbers: its description, the integer and the float registers left, the integers-only mark, and the next stack offset.
 * Each operation takes a call as these five and answers the next one, with the outcome behind it.
 *
 * Every operation refuses, in this order: BAD_ABI; BAD_CALL; what its value has to be refused for; NO_ROOM.
 * A scalar is refused by kind, size, alignment. An aggregate: BAD_LIST; its size; its alignment; then its pieces from the first, each by
 * kind, size, offset, alignment; then BAD_EXTENT, where the offset and the size of a piece add up to more than the aggregate's size. Void
 * has nothing to check.
 *
 * `words` are an aggregate's pieces, `words_length` words of them. Slots go to the front of `slots`, which has `slots_length` words and so
 * room for a third as many slots, rounded down; ways other than WAY_PIECES write nothing. NO_ROOM judges what the result needs: its slots,
 * and the stack, where nothing may end past MOST_STACK.
 *
 * What of an argument isn't in given registers stands on the stack, in stack_bytes bytes from stack_at on (REFERENCE 9.9):
 *
 *     WAY_DIRECT      the scalar; of one that was given integer registers, its bytes behind those that these hold
 *     WAY_PIECES      the last slots, as many as were given no register, a word of the integer width each; of a scalar, as WAY_DIRECT
 *     WAY_REFERENCE   the address
 *     WAY_MEMORY      the aggregate, whole
 *
 * Where stack_bytes is more than that, it comes first, and padding behind it. Of a result only the address can be there, where it was given
 * no register and has none of its own (RETURN_POINTER_DEDICATED). Offsets count bytes from the first stack argument. Where that is belongs
 * to the bridge; on ABI_WINDOWS_X64 it is behind the 32 bytes of home space. The bytes of two operations never overlap: the next call's
 * `stack` is where this value's bytes end, or as it was where there are none. Behind the last argument it is their number in all.
 */

/* The start of a call on a description: both banks whole, no mark, nothing on the stack. Refuses BAD_ABI. */
barkpaddle_answer barkpaddle_fresh(uint64_t abi);

/* The same call, to a function whose parameters end in dots (REFERENCE 9.6). May come late and more than once. Refuses BAD_ABI, then
 * BAD_CALL. */
barkpaddle_answer barkpaddle_variadic(uint64_t abi, uint64_t integer, uint64_t float_, uint64_t integers_only, uint64_t stack);

/* How the return value comes back (REFERENCE 9.4). */
barkpaddle_answer barkpaddle_return_void(
    uint64_t abi, uint64_t integer, uint64_t float_, uint64_t integers_only, uint64_t stack, uint64_t *slots, uint64_t slots_length);
barkpaddle_answer barkpaddle_return_scalar(
    uint64_t abi, uint64_t integer, uint64_t float_, uint64_t integers_only, uint64_t stack, uint64_t kind, uint64_t size, uint64_t align,
    uint64_t *slots, uint64_t slots_length);
barkpaddle_answer barkpaddle_return_aggregate(
    uint64_t abi, uint64_t integer, uint64_t float_, uint64_t integers_only, uint64_t stack, uint64_t size, uint64_t align,
    uint64_t complex_, uint64_t floating, const uint64_t *words, uint64_t words_length, uint64_t *slots, uint64_t slots_length);

/* How the next fixed argument travels (REFERENCE 9.2, 9.3). */
barkpaddle_answer barkpaddle_argument_void(
    uint64_t abi, uint64_t integer, uint64_t float_, uint64_t integers_only, uint64_t stack, uint64_t *slots, uint64_t slots_length);
barkpaddle_answer barkpaddle_argument_scalar(
    uint64_t abi, uint64_t integer, uint64_t float_, uint64_t integers_only, uint64_t stack, uint64_t kind, uint64_t size, uint64_t align,
    uint64_t *slots, uint64_t slots_length);
barkpaddle_answer barkpaddle_argument_aggregate(
    uint64_t abi, uint64_t integer, uint64_t float_, uint64_t integers_only, uint64_t stack, uint64_t size, uint64_t align,
    uint64_t complex_, uint64_t floating, const uint64_t *words, uint64_t words_length, uint64_t *slots, uint64_t slots_length);

/* How the next argument after the dots travels (REFERENCE 9.5). */
barkpaddle_answer barkpaddle_variadic_argument_void(
    uint64_t abi, uint64_t integer, uint64_t float_, uint64_t integers_only, uint64_t stack, uint64_t *slots, uint64_t slots_length);
barkpaddle_answer barkpaddle_variadic_argument_scalar(
    uint64_t abi, uint64_t integer, uint64_t float_, uint64_t integers_only, uint64_t stack, uint64_t kind, uint64_t size, uint64_t align,
    uint64_t *slots, uint64_t slots_length);
barkpaddle_answer barkpaddle_variadic_argument_aggregate(
    uint64_t abi, uint64_t integer, uint64_t float_, uint64_t integers_only, uint64_t stack, uint64_t size, uint64_t align,
    uint64_t complex_, uint64_t floating, const uint64_t *words, uint64_t words_length, uint64_t *slots, uint64_t slots_length);

/* What a fixed argument that travels as WAY_MEMORY is aligned to in the argument area (REFERENCE 9.7). Refuses like
 * barkpaddle_argument_aggregate, but never NO_ROOM. */
barkpaddle_told barkpaddle_in_memory(
    uint64_t abi, uint64_t integer, uint64_t float_, uint64_t integers_only, uint64_t stack, uint64_t size, uint64_t align,
    uint64_t complex_, uint64_t floating, const uint64_t *words, uint64_t words_length);

/* ---- a lent call (REFERENCE 14) ----
 *
 * A call that is kept in one place and updated there. It starts as barkpaddle_fresh says:
 *
 *     barkpaddle_call call = barkpaddle_fresh(BARKPADDLE_ABI_SYSV_AMD64).next;
 *
 * Each entry is lent the call and stores the next one in its place. It answers and refuses what the entry above that takes the same call
 * and the same value answers and refuses, and writes the same slots. It is the same call in both forms, and they can be mixed. A refused
 * operation leaves the call and the slots as they were.
 *
 * What is asked has a form, and the fields that the form doesn't read may hold anything: FORM_VOID reads none, FORM_SCALAR kind, size and
 * align, FORM_AGGREGATE size, align, complex_ and floating. An aggregate's pieces are `words`, which no other form looks at. A form of
 * another number is refused BAD_KIND, after BAD_ABI and BAD_CALL.
 *
 * `call` has to point to a call. Neither it nor what `slots` points to may overlap anything else that is lent.
 */
typedef struct barkpaddle_what {
    uint64_t form;
    uint64_t kind;
    uint64_t size;
    uint64_t align;
    uint64_t complex_;
    uint64_t floating;
} barkpaddle_what;

/* The call becomes one to a function whose parameters end in dots: barkpaddle_variadic. Where it is accepted, all of the outcome is 0. */
barkpaddle_outcome barkpaddle_bridge_variadic(barkpaddle_call *call);

/* How the return value comes back: barkpaddle_return_void, _scalar and _aggregate, by the form. */
barkpaddle_outcome barkpaddle_bridge_returns(
    barkpaddle_call *call, barkpaddle_what what, const uint64_t *words, uint64_t words_length, uint64_t *slots, uint64_t slots_length);

/* How the next fixed argument travels: barkpaddle_argument_void, _scalar and _aggregate. */
barkpaddle_outcome barkpaddle_bridge_argument(
    barkpaddle_call *call, barkpaddle_what what, const uint64_t *words, uint64_t words_length, uint64_t *slots, uint64_t slots_length);

/* How the next argument after the dots travels: barkpaddle_variadic_argument_void, _scalar and _aggregate. */
barkpaddle_outcome barkpaddle_bridge_variadic_argument(
    barkpaddle_call *call, barkpaddle_what what, const uint64_t *words, uint64_t words_length, uint64_t *slots, uint64_t slots_length);

/* ---- records from their members ---- */

/* Places each member, a scalar of three words, at the next offset that it fits, and writes them as pieces of four words; answers how many.
 * Refuses, in this order: BAD_LIST; the members from the first by kind, size, alignment; NO_ROOM (REFERENCE 4.2). */
barkpaddle_told barkpaddle_pieces(const uint64_t *members, uint64_t members_length, uint64_t *pieces, uint64_t pieces_length);

/* The record that these pieces make. Refuses, in this order: BAD_LIST; the pieces from the first by kind, size, offset, alignment;
 * BAD_ALIGN where there are pieces and all alignments are 0; BAD_SIZE where the rounded size is above the limit (REFERENCE 4.3). */
barkpaddle_record_shape barkpaddle_record(const uint64_t *words, uint64_t words_length);

/* ---- types inside types (REFERENCE 4.5, 13.3) ----
 *
 * `types` is a list of entries, ENTRY_WORDS words each and numbered from 0. Each is a type, and the last one is the type that is wanted.
 * What it is, by its ENTRY_KIND:
 *
 *     a scalar's kind   that scalar, of ENTRY_SIZE and ENTRY_ALIGN
 *     ENTRY_RECORD      ENTRY_COUNT members, one behind the other, each at the next offset that it fits
 *     ENTRY_UNION       ENTRY_COUNT members, all at 0
 *     ENTRY_ARRAY       ENTRY_COUNT elements, all of the entry ENTRY_ELEMENT, its rounded size apart
 *
 * `members` has a word for each member: its entry's number. Those of a record or a union are the words from ENTRY_FIRST on; two entries
 * may share some. A member or an element comes before the entry that it is in, and may be in several.
 *
 * A type's alignment is the largest of those in it, an array of 0 elements having its element's; 0 counts as 1, and so does none. Its size
 * is the furthest end of what is in it, 0 where that is nothing, rounded up to the alignment. A scalar of size 0 ends a byte behind its
 * start. In a record a scalar moves the next member on by its own size, one of size 0 by 0, and any other type by its rounded size.
 */

/* Writes each scalar in the wanted type, in order, as a piece to the front of `pieces`, which has room for a fourth as many pieces as it
 * has words, rounded down; every word behind them keeps its value. A piece's offset is counted from the start of the wanted type, and its
 * alignment is the scalar's own, be it 0. Answers how many pieces that were, and the type's size and alignment: with these the pieces are a
 * shape that every operation accepts. It isn't complex; whether it is floating barkpaddle_record says of the pieces, where the size that it
 * answers is the type's. It can't see what an array of 0 elements is aligned to, and refuses pieces whose alignments are all 0.
 *
 * Refuses, in this order:
 *
 *     BAD_LIST    `types` isn't whole entries, or no entry, or more than MOST_ENTRIES; `members` has more than MOST_MEMBERS words
 *     BAD_TYPE    any entry with a member or an element that is itself, a later entry or none. Members behind the end of `members` are
 *                 none. Where there are no members ENTRY_FIRST isn't read; the element of an array of 0 is looked at all the same. An entry
 *                 of a kind that is none has neither
 *     TOO_DEEP    the wanted type has more than MOST_LEVELS levels: one more than the member or element that has most, whatever the
 *                 counts, and one where there is none. A scalar has one
 *
 * then the entries from the first, be they in the wanted type or not, each by
 *
 *     BAD_KIND    neither a scalar's kind nor one of the three
 *     BAD_SIZE    a scalar's size above LARGEST_SCALAR; an array's count above MOST_ELEMENTS; the size of any other than a scalar above
 *                 LARGEST_SHAPE
 *     BAD_ALIGN   a scalar's alignment above LARGEST_ALIGN
 *
 * and last
 *
 *     NO_ROOM     more pieces than MOST_PIECES, or than `pieces` has room for
 *
 * It takes some 45 KB of stack. */
barkpaddle_flat barkpaddle_flatten(
    const uint64_t *types, uint64_t types_length, const uint64_t *members, uint64_t members_length, uint64_t *pieces,
    uint64_t pieces_length);

/* ---- what a description says ---- */

/* Its fields. Refuses BAD_ABI; every other field is 0 then. */
barkpaddle_description_fields barkpaddle_description(uint64_t abi);

/* Rule `index`, from 0, of its list for returns and of its list for arguments. Past the end of the list the test is TEST_NO_RULE and the
 * other fields are 0. Refuses BAD_ABI. */
barkpaddle_rule barkpaddle_return_rule(uint64_t abi, uint64_t index);
barkpaddle_rule barkpaddle_argument_rule(uint64_t abi, uint64_t index);

/* Its name, without a 0 at the end, to the front of the buffer; answers how many bytes. Refuses BAD_ABI, then NO_ROOM. */
barkpaddle_told barkpaddle_name(uint64_t abi, uint8_t *name, uint64_t name_length);

/* Questions about a scalar of a size (REFERENCE 5.7). Each refuses BAD_ABI, then BAD_SIZE. The first two answer yes or no: does it travel
 * as the address of a copy; does it come back through an address that the caller passes. The third answers the format in which an
 * integer comes back that would be by reference otherwise, or KIND_NO_FORMAT. */
barkpaddle_told barkpaddle_scalar_is_by_reference(uint64_t abi, uint64_t size);
barkpaddle_told barkpaddle_scalar_returns_by_reference(uint64_t abi, uint64_t size);
barkpaddle_told barkpaddle_wide_integer_returns_in(uint64_t abi, uint64_t size);

/* ---- which description a target and a convention follow (REFERENCE 6) ----
 *
 * These refuse nothing: to a code that they don't know the lookups answer NONE, and barkpaddle_callee_pops answers no. `msvc` is yes or no.
 */

/* The description that a target follows, or NONE. For RISC-V it is RISCV_LP64D, which isn't what compilers follow: to call what they
 * compiled take RISCV_PSABI_LP64, RISCV_PSABI_LP64F or RISCV_PSABI_LP64D by the -mabi that it was compiled with. */
uint64_t barkpaddle_for_target(uint64_t architecture, uint64_t system, uint64_t msvc);

/* The description that a function of a convention follows on a target, or NONE. */
uint64_t barkpaddle_for_convention(uint64_t architecture, uint64_t system, uint64_t msvc, uint64_t convention);

/* The convention that an attribute's name asks for on a target, or NONE. The name is compared whole, case for case. */
uint64_t barkpaddle_asked(uint64_t architecture, uint64_t system, uint64_t msvc, const uint8_t *name, uint64_t name_length);

/* The name of the attribute that asks for a convention, to the front of the buffer; answers how many bytes, or NONE where there is no name.
 * Refuses NO_ROOM. */
barkpaddle_told barkpaddle_attribute(uint64_t convention, uint8_t *name, uint64_t name_length);

/* Whether the callee of a convention takes its arguments off the stack. */
uint64_t barkpaddle_callee_pops(uint64_t convention);

/* ---- reading a variable argument list: the callee's side of description 0 (REFERENCE 15) ----
 *
 * A function of ABI_SYSV_AMD64 that ends in dots finds the values behind its named parameters in two areas. Its `va_list` is a struct of
 * two numbers of 32 bits, gp_offset and fp_offset, and two pointers, overflow_arg_area and reg_save_area. What is lent and handed in:
 *
 *     save              reg_save_area, AREA_SAVE_BYTES bytes of it
 *     overflow          the 16-aligned address at or below overflow_arg_area, as far as the arguments reach
 *     gp_offset         gp_offset: 0, 8, .., 40, or AREA_GP_END where no integer place is left
 *     fp_offset         fp_offset: AREA_FP_START, 64, .., 160, or AREA_FP_END where no float place is left
 *     overflow_offset   how far overflow_arg_area is behind `overflow`
 *
 * Lent from the first stack argument on, named parameters among it, `overflow` starts 16-aligned, and overflow_offset is the `stack` of the
 * call that the result and the named parameters left.
 *
 * An answer's three offsets go to the next read; overflow_arg_area is then `overflow` plus overflow_offset. That `overflow` is 16-aligned
 * is for the caller to see to: where it isn't, a value that is aligned to 16 is looked for in a wrong place. A length is what may be read
 * there, and below 2^63 as all that memory holds; one that stands for "no end" is a wrong one.
 */

/* Where a scalar's own bytes are: `length` bytes from `start` on of the area; and the offsets for the next one. Refused, it is
 * AREA_NOWHERE with 0 and 0, and the offsets are those that were handed in. */
typedef struct barkpaddle_part {
    uint64_t refusal;
    uint64_t area;
    uint64_t start;
    uint64_t length;
    uint64_t gp_offset;
    uint64_t fp_offset;
    uint64_t overflow_offset;
} barkpaddle_part;

/* The bytes of a part, as a pointer into the area that holds them; NULL where it is refused. `part` is evaluated up to three times. A value
 * of 16 bytes need not be aligned to 16 there: copy it out, as with memcpy. */
#define BARKPADDLE_PART_BYTES(part, save, overflow) \
    ((part).area == BARKPADDLE_AREA_SAVE       ? (const uint8_t *)(save) + (part).start \
     : (part).area == BARKPADDLE_AREA_OVERFLOW ? (const uint8_t *)(overflow) + (part).start \
                                               : (const uint8_t *)0)

/* The next scalar of the list. Its size is the format's own (4, 8, 16, 16), an integer's 1, 2, 4, 8 or 16, and its alignment is its size.
 * Nothing that is lent is written, or read: the answer follows from the two lengths. Refuses, in this order: BAD_KIND; BAD_SIZE; BAD_ALIGN;
 * BAD_AREA where the save area isn't AREA_SAVE_BYTES long or gp_offset or fp_offset isn't a place or the end, whichever area the scalar is
 * in, and where the scalar is in the overflow area and that ends before the scalar's last byte. */
barkpaddle_part barkpaddle_read_scalar(
    const uint8_t *save, uint64_t save_length, const uint8_t *overflow, uint64_t overflow_length, uint64_t gp_offset, uint64_t fp_offset,
    uint64_t overflow_offset, uint64_t kind, uint64_t size, uint64_t align);

#ifdef __cplusplus
}
#endif

#endif
