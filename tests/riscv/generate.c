/*
 * Writes random calls in C, with where the library says that each byte of each value is: check.c holds compilers against that.
 *
 * generate ROW SEED COUNT FILE: so many calls of the description ROW, the same ones for a seed. A call has a result, or none, and up to
 * MOST_ARGUMENTS arguments, some of them behind dots. Its values are scalars whose alignment is their size, complex floats, and records of
 * these: nested ones, arrays, members and records that are declared to be aligned to more, up to 16, and the padding that this makes; no
 * unions, no bit-fields, nothing without a byte. Behind dots C promotes a float and a narrow integer, so no such scalar stands there.
 *
 * Exits 1 where the library refuses a value or leaves a byte of it out, or where the calls hardly meet something that is to be compared.
 */
#include <ctype.h>
#include <stdarg.h>
#include <stdio.h>
#include <stdlib.h>
#include <string.h>

#include "barkpaddle.h"
#include "check.h"
#include "compiled.h"

#define WORD 8
#define MOST_LEAVES 16
#define MOST_LEVELS 3
#define MOST_TEXT 400

/* ---- random numbers ---- */

static uint64_t random_state;

/* splitmix64 */
static unsigned below(unsigned limit)
{
    uint64_t z = random_state += UINT64_C(0x9E3779B97F4A7C15);

    z = (z ^ (z >> 30)) * UINT64_C(0xBF58476D1CE4E5B9);
    z = (z ^ (z >> 27)) * UINT64_C(0x94D049BB133111EB);
    return (unsigned)((z ^ (z >> 31)) % limit);
}

/* The smaller of two. */
static unsigned few_below(unsigned limit)
{
    unsigned a = below(limit), b = below(limit);

    return a < b ? a : b;
}

static char one_letter(const char *letters)
{
    return letters[below((unsigned)strlen(letters))];
}

#define ONE_OF(array) ((array)[below(COUNT(array))])

/* ---- types ---- */

/* A scalar in a type. */
typedef struct leaf {
    uint64_t kind, size, offset;
} leaf;

typedef struct type {
    int is_aggregate, is_complex;
    int is_too_large;
    uint64_t size, align;
    uint64_t leaf_count;
    leaf leaves[MOST_LEAVES];
    char text[MOST_TEXT]; /* in C */
} type;

static const struct {
    char letter;
    const char *name;
    uint64_t kind, size;
} scalars[] = {
    {'c', "signed char", BARKPADDLE_KIND_INTEGER, 1}, {'w', "short", BARKPADDLE_KIND_INTEGER, 2},
    {'i', "int", BARKPADDLE_KIND_INTEGER, 4},         {'l', "long", BARKPADDLE_KIND_INTEGER, 8},
    {'q', "__int128", BARKPADDLE_KIND_INTEGER, 16},   {'f', "float", BARKPADDLE_KIND_SINGLE, 4},
    {'d', "double", BARKPADDLE_KIND_DOUBLE, 8},       {'x', "long double", BARKPADDLE_KIND_QUAD, 16}};

/* What is drawn from: a scalar's letter, in upper case a complex of it, and r for a record. What stands more than once is drawn more often,
 * and each list keeps to one of these. */
static const char of_results[] = "cwilqfdxFDXrrrrrrrrrrrr";
static const char *const of_named[] = {"cwilqfdxFDXrrrr", "cwil", "ilr", "fd", "fdr", "fdFDrrr", "ilqr", "qxlr", "r", "ffffddddilr"};
static const char *const of_unnamed[] = {"ilqdxFDXrrr", "il", "lqr", "dlx", "ilr", "qxlr", "r"};
static const char *const of_members[] = {"f", "f", "d", "fd", "fi", "dl", "fdcwil", "cwil", "il", "l", "qx", "fF", "cwilqfdxFDX"};

static uint64_t round_up(uint64_t number, uint64_t to)
{
    return (number + to - 1) / to * to;
}

static void add_text(type *t, const char *format, ...)
{
    size_t length = strlen(t->text);
    va_list list;
    int wanted;

    va_start(list, format);
    wanted = vsnprintf(t->text + length, sizeof t->text - length, format, list);
    va_end(list);
    t->is_too_large |= wanted < 0 || (size_t)wanted >= sizeof t->text - length;
}

static void add_leaf(type *t, leaf l)
{
    if (t->leaf_count == MOST_LEAVES)
        t->is_too_large = 1;
    else
        t->leaves[t->leaf_count++] = l;
}

/* So many of a type, one behind the other. */
static void add_leaves(type *t, const type *element, uint64_t at, uint64_t elements)
{
    const leaf *l;

    for (; elements > 0; elements--, at += element->size)
        for (l = element->leaves; l < element->leaves + element->leaf_count; l++)
            add_leaf(t, (leaf){l->kind, l->size, at + l->offset});
}

static void make_scalar(type *t, char letter)
{
    size_t i = 0;

    memset(t, 0, sizeof *t);
    while (scalars[i].letter != letter)
        i++;
    t->size = t->align = scalars[i].size;
    add_text(t, "%s", scalars[i].name);
    add_leaf(t, (leaf){scalars[i].kind, scalars[i].size, 0});
}

static void make_complex(type *t, char letter)
{
    type part;

    make_scalar(&part, letter);
    memset(t, 0, sizeof *t);
    t->is_aggregate = t->is_complex = 1;
    t->size = 2 * part.size;
    t->align = part.align;
    add_text(t, "_Complex %s", part.text);
    add_leaves(t, &part, 0, 2);
}

static void draw_record(type *t, unsigned levels);

static void draw_type(type *t, const char *letters, unsigned levels)
{
    char letter = one_letter(letters);

    if (letter == 'r')
        draw_record(t, levels);
    else if (isupper((unsigned char)letter))
        make_complex(t, (char)tolower((unsigned char)letter));
    else
        make_scalar(t, letter);
}

/* What something is declared to be aligned to. */
static uint64_t drawn_alignment(void)
{
    return below(8) == 0 ? UINT64_C(1) << below(5) : 1;
}

static void add_member(type *t, const char *letters, unsigned number, unsigned levels)
{
    int is_array = below(6) == 0;
    unsigned elements = is_array ? 1 + below(3) : 1;
    uint64_t declared = drawn_alignment();
    uint64_t at;
    type member;

    draw_type(&member, levels > 1 && below(6) == 0 ? "r" : letters, levels - 1);
    add_text(t, " %s m%u", member.text, number);
    if (is_array)
        add_text(t, "[%u]", elements);
    if (declared > member.align) {
        add_text(t, " BY(%u)", (unsigned)declared);
        member.align = declared;
    }
    add_text(t, ";");
    at = round_up(t->size, member.align);
    add_leaves(t, &member, at, elements);
    t->size = at + elements * member.size;
    if (t->align < member.align)
        t->align = member.align;
}

static void draw_record_once(type *t, unsigned levels)
{
    const char *letters = ONE_OF(of_members);
    unsigned members = 1 + few_below(4);
    unsigned i;

    memset(t, 0, sizeof *t);
    t->is_aggregate = 1;
    t->align = drawn_alignment();
    add_text(t, "struct");
    if (t->align > 1)
        add_text(t, " BY(%u)", (unsigned)t->align);
    add_text(t, " {");
    for (i = 0; i < members; i++)
        add_member(t, letters, i, levels);
    add_text(t, " }");
    t->size = round_up(t->size, t->align);
    t->is_too_large |= t->size > MOST_BYTES;
}

static void draw_record(type *t, unsigned levels)
{
    do
        draw_record_once(t, levels);
    while (t->is_too_large);
}

/* ---- calls ---- */

/* The call that is drawn. Value 0 is the result, the others are the arguments; those behind the named ones are behind dots. */
static struct {
    unsigned number;
    int has_result, has_dots;
    unsigned named, arguments;
    type types[MOST_ARGUMENTS + 1];
} drawn;

static void draw_call(unsigned number)
{
    const char *named = ONE_OF(of_named), *unnamed = ONE_OF(of_unnamed);
    unsigned i;

    drawn.number = number;
    drawn.has_result = below(6) != 0;
    drawn.has_dots = below(3) == 0;
    drawn.arguments = below(MOST_ARGUMENTS + 1);
    if (drawn.has_dots && drawn.arguments == 0)
        drawn.arguments = 1; /* C wants a named one before dots */
    drawn.named = drawn.has_dots ? 1 + few_below(drawn.arguments) : drawn.arguments;
    if (drawn.has_result)
        draw_type(&drawn.types[0], of_results, MOST_LEVELS);
    for (i = 1; i <= drawn.arguments; i++)
        draw_type(&drawn.types[i], i <= drawn.named ? named : unnamed, MOST_LEVELS);
}

static void fails(unsigned value, const char *what)
{
    failed++;
    printf("FAILED call %u, value %u, %s: %s\n", drawn.number, value, drawn.types[value].text, what);
}

/* ---- what the calls meet ---- */

enum sight {
    IN_INTEGERS,
    IN_FLOATS,
    FLOAT_IN_INTEGERS,
    SPLIT,
    PASSED_OVER,
    ON_STACK,
    ADDRESS_IN_REGISTER,
    ADDRESS_ON_STACK,
    BEHIND_DOTS,
    RESULT_DIRECT,
    RESULT_IN_PIECES,
    RESULT_BY_REFERENCE,
    SIGHTS
};

static const char *const sight_names[SIGHTS] = {
    "an argument in integer registers",
    "an argument in float registers",
    "a float scalar in integer registers",
    "an argument in a register and on the stack",
    "a register that is passed over",
    "an argument on the stack",
    "an argument's address in a register",
    "an argument's address on the stack",
    "an argument behind dots",
    "a scalar that comes back",
    "a record that comes back in registers",
    "a result by reference"};

static unsigned long seen[SIGHTS];

static void note_result(const barkpaddle_outcome *o)
{
    seen[RESULT_DIRECT] += o->way == BARKPADDLE_WAY_DIRECT;
    seen[RESULT_IN_PIECES] += o->way == BARKPADDLE_WAY_PIECES;
    seen[RESULT_BY_REFERENCE] += o->way == BARKPADDLE_WAY_REFERENCE;
}

static void note_argument(unsigned value, const barkpaddle_outcome *o)
{
    const type *t = &drawn.types[value];
    int is_float = !t->is_aggregate && t->leaves[0].kind != BARKPADDLE_KIND_INTEGER;
    int is_address = o->way == BARKPADDLE_WAY_REFERENCE;

    seen[IN_INTEGERS] += !is_address && o->integers_given > 0;
    seen[IN_FLOATS] += o->floats_given > 0;
    seen[FLOAT_IN_INTEGERS] += is_float && t->size <= WORD && value <= drawn.named && o->integers_given > 0;
    seen[SPLIT] += o->integers_given > 0 && o->stack_bytes > 0;
    seen[PASSED_OVER] += o->integers_passed > 0;
    seen[ON_STACK] += !is_address && o->stack_bytes > 0;
    seen[ADDRESS_IN_REGISTER] += is_address && o->integers_given > 0;
    seen[ADDRESS_ON_STACK] += is_address && o->stack_bytes > 0;
    seen[BEHIND_DOTS] += value > drawn.named;
}

/* One in a hundred calls has to meet each; or the comparison finds less than it says. */
static void check_sights(unsigned calls_drawn, int has_floats)
{
    int i;

    for (i = 0; i < SIGHTS; i++)
        if (i != IN_FLOATS || has_floats)
            was_seen(sight_names[i], seen[i], calls_drawn / 100);
}

/* ---- where the library says that a value is ---- */

#define NOWHERE (-1)

/* Where the machine has each byte of a value, or the address behind which it is. */
typedef struct location {
    int is_behind;
    int at[MOST_BYTES];
} location;

/* The description's registers, and the widest float that one holds. */
static struct {
    uint64_t row, integers, floats, float_width;
} description;

static void locate(location *l, uint64_t from, uint64_t count, uint64_t at)
{
    uint64_t i;

    for (i = from; i < from + count && i < MOST_BYTES; i++)
        l->at[i] = (int)(at + i - from);
}

/* Its slots: the next given register of the slot's bank, and a word of the stack where none is left. */
static void locate_slots(location *l, const barkpaddle_outcome *o, const uint64_t *slots, uint64_t integer_at, uint64_t float_at)
{
    uint64_t integers_end = integer_at + WORD * o->integers_given, floats_end = float_at + WORD * o->floats_given;
    uint64_t stack_at = STACK_AT + o->stack_at;
    const uint64_t *slot;

    for (slot = slots; slot < slots + BARKPADDLE_SLOT_WORDS * o->slots; slot += BARKPADDLE_SLOT_WORDS) {
        int is_integer = slot[BARKPADDLE_SLOT_KIND] == BARKPADDLE_KIND_INTEGER;
        uint64_t float_size = slot[BARKPADDLE_SLOT_KIND] == BARKPADDLE_KIND_SINGLE ? 4 : 8;
        uint64_t *at = is_integer && integer_at < integers_end ? &integer_at : !is_integer && float_at < floats_end ? &float_at : &stack_at;

        locate(l, slot[BARKPADDLE_SLOT_OFFSET], is_integer ? slot[BARKPADDLE_SLOT_SIZE] : float_size, *at);
        *at += WORD;
    }
}

/* By the answer, and by where in the machine the registers start that it gives. */
static void locate_value(
    location *l, const type *t, const barkpaddle_outcome *o, const uint64_t *slots, uint64_t integer_at, uint64_t float_at)
{
    uint64_t in_registers = o->integers_given * WORD < t->size ? o->integers_given * WORD : t->size;
    uint64_t i;

    l->is_behind = o->way == BARKPADDLE_WAY_REFERENCE;
    for (i = 0; i < MOST_BYTES; i++)
        l->at[i] = NOWHERE;
    switch (o->way) {
    case BARKPADDLE_WAY_DIRECT:
        if (o->floats_given > 0) {
            locate(l, 0, t->size, float_at);
            break;
        }
        locate(l, 0, in_registers, integer_at);
        locate(l, in_registers, t->size - in_registers, STACK_AT + o->stack_at);
        break;
    case BARKPADDLE_WAY_PIECES:
        locate_slots(l, o, slots, integer_at, float_at);
        break;
    case BARKPADDLE_WAY_REFERENCE:
        for (i = 0; i < t->size; i++)
            l->at[i] = (int)(o->integers_given > 0 ? integer_at : STACK_AT + o->stack_at);
        break;
    case BARKPADDLE_WAY_MEMORY:
        locate(l, 0, t->size, STACK_AT + o->stack_at);
        break;
    default:
        break;
    }
}

/* A result that comes back in registers has the first ones, though nothing is spent on it. */
static void give_first_registers(const type *t, barkpaddle_outcome *o)
{
    int is_float = t->leaves[0].kind != BARKPADDLE_KIND_INTEGER && t->size <= description.float_width;

    if (o->way == BARKPADDLE_WAY_REFERENCE)
        return;
    o->integers_given = 2;
    o->floats_given = o->way == BARKPADDLE_WAY_PIECES ? 2 : is_float;
}

typedef barkpaddle_outcome (*operation)(barkpaddle_call *, barkpaddle_what, const uint64_t *, uint64_t, uint64_t *, uint64_t);

static barkpaddle_outcome ask(operation entry, barkpaddle_call *c, const type *t, uint64_t *slots)
{
    uint64_t form = t->is_aggregate ? BARKPADDLE_FORM_AGGREGATE : BARKPADDLE_FORM_SCALAR;
    barkpaddle_what what = {form, t->leaves[0].kind, t->size, t->align, (uint64_t)t->is_complex, 0};
    uint64_t pieces[MOST_LEAVES * BARKPADDLE_PIECE_WORDS];
    uint64_t *piece = pieces;
    const leaf *l;

    for (l = t->leaves; l < t->leaves + t->leaf_count; l++) {
        piece[BARKPADDLE_PIECE_KIND] = l->kind;
        piece[BARKPADDLE_PIECE_SIZE] = piece[BARKPADDLE_PIECE_ALIGN] = l->size;
        piece[BARKPADDLE_PIECE_OFFSET] = l->offset;
        piece += BARKPADDLE_PIECE_WORDS;
    }
    return entry(c, what, pieces, (uint64_t)(piece - pieces), slots, BARKPADDLE_MOST_SLOT_WORDS);
}

static location located(operation entry, barkpaddle_call *c, unsigned value)
{
    const type *t = &drawn.types[value];
    barkpaddle_call before = *c;
    uint64_t slots[BARKPADDLE_MOST_SLOT_WORDS];
    barkpaddle_outcome o = ask(entry, c, t, slots);
    location l;

    if (o.refusal != BARKPADDLE_ACCEPTED)
        fails(value, "the library refuses it");
    if (value > 0)
        note_argument(value, &o);
    else {
        note_result(&o);
        give_first_registers(t, &o);
    }
    locate_value(
        &l, t, &o, slots, INTEGERS_AT + WORD * (description.integers - before.integer + o.integers_passed),
        FLOATS_AT + WORD * (description.floats - before.float_ + o.floats_passed));
    return l;
}

/* ---- C ---- */

static FILE *c_file;

static void write_c(const char *format, ...)
{
    va_list list;

    va_start(list, format);
    vfprintf(c_file, format, list);
    va_end(list);
}

/* A value's type in this call: its name, as write_types has it. */
static void write_type(unsigned value)
{
    if (value == 0 && !drawn.has_result)
        write_c("void");
    else
        write_c("type_%u_%u", drawn.number, value);
}

static void write_types(void)
{
    unsigned i;

    for (i = !drawn.has_result; i <= drawn.arguments; i++) {
        write_c("typedef %s ", drawn.types[i].text);
        write_type(i);
        write_c(";\n_Static_assert(sizeof(");
        write_type(i);
        write_c(") == %u && _Alignof(", (unsigned)drawn.types[i].size);
        write_type(i);
        write_c(") == %u, \"laid out otherwise\");\n", (unsigned)drawn.types[i].align);
    }
}

/* Each parameter's type, and its name behind it where it is to have one. */
static void write_parameters(const char *name)
{
    unsigned i;

    write_c("(");
    for (i = 1; i <= drawn.named; i++) {
        write_c(i > 1 ? ", " : "");
        write_type(i);
        if (name != NULL)
            write_c(" %s%u", name, i);
    }
    write_c(drawn.has_dots ? ", ...)" : drawn.named > 0 ? ")" : "void)");
}

static void write_caller(void)
{
    unsigned i;

    write_c("static void caller_%u(void)\n{\n    ", drawn.number);
    if (drawn.has_result) {
        write_c("FOUND(");
        write_type(0);
        write_c(", 0) = ");
    }
    write_c("((");
    write_type(0);
    write_c(" (*)");
    write_parameters(NULL);
    write_c(")capturing)(");
    for (i = 1; i <= drawn.arguments; i++) {
        write_c(i > 1 ? ", GIVEN(" : "GIVEN(");
        write_type(i);
        write_c(", %u)", i);
    }
    write_c(");\n}\n");
}

static void write_function(void)
{
    unsigned i;

    write_c("static ");
    write_type(0);
    write_c(" function_%u", drawn.number);
    write_parameters("p");
    write_c("\n{\n");
    if (drawn.has_dots)
        write_c("    va_list list;\n    va_start(list, p%u);\n", drawn.named);
    for (i = 1; i <= drawn.arguments; i++) {
        write_c("    FOUND(");
        write_type(i);
        if (i <= drawn.named)
            write_c(", %u) = p%u;\n", i, i);
        else {
            write_c(", %u) = va_arg(list, ", i);
            write_type(i);
            write_c(");\n");
        }
    }
    if (drawn.has_dots)
        write_c("    va_end(list);\n");
    if (drawn.has_result) {
        write_c("    return GIVEN(");
        write_type(0);
        write_c(", 0);\n");
    }
    write_c("}\n");
}

/* The call as a reader knows it: what is behind the dots stands behind a colon. */
static void write_signature(void)
{
    unsigned i;

    write_c("\"%s (", drawn.has_result ? drawn.types[0].text : "void");
    for (i = 1; i <= drawn.arguments; i++)
        write_c("%s%s", i == 1 ? "" : i == drawn.named + 1 ? ", ...: " : ", ", drawn.types[i].text);
    write_c(drawn.has_dots && drawn.named == drawn.arguments ? ", ...)\"" : ")\"");
}

/* The places of a value's scalars: runs of bytes that stand together. Answers how many. */
static unsigned write_places(unsigned value, const location *w)
{
    const type *t = &drawn.types[value];
    unsigned places = 0;
    const leaf *l;

    for (l = t->leaves; l < t->leaves + t->leaf_count; l++) {
        uint64_t end = l->offset + l->size;
        uint64_t from, to;

        for (from = l->offset; from < end; from = to) {
            if (w->at[from] < 0 || w->at[from] >= MACHINE_BYTES - WORD)
                fails(value, "the library has no place for a byte of it");
            for (to = from + 1; to < end && w->at[to] == w->at[to - 1] + !w->is_behind; to++)
                ;
            write_c("    {%u, %u, %u, %d, %d},\n", value, (unsigned)from, (unsigned)(to - from), w->at[from], w->is_behind);
            places++;
        }
    }
    return places;
}

/* Asks the library about the call, from its result on, and writes what it says. */
static void write_answers(void)
{
    barkpaddle_call c = barkpaddle_fresh(description.row).next;
    unsigned of_result = 0, of_all;
    unsigned i;
    location l;

    write_c("static const place places_%u[] = {\n", drawn.number);
    if (drawn.has_dots)
        barkpaddle_bridge_variadic(&c);
    if (drawn.has_result) {
        l = located(barkpaddle_bridge_returns, &c, 0);
        of_result = write_places(0, &l);
    }
    of_all = of_result;
    for (i = 1; i <= drawn.arguments; i++) {
        l = located(i <= drawn.named ? barkpaddle_bridge_argument : barkpaddle_bridge_variadic_argument, &c, i);
        of_all += write_places(i, &l);
    }
    write_c("    {0, 0, 0, 0, 0}};\nstatic const call call_%u = {\n    ", drawn.number); /* C wants an element where there is none */
    write_signature();
    write_c(",\n    caller_%u, (void (*)(void))function_%u, places_%u, ", drawn.number, drawn.number, drawn.number);
    write_c("%u, %u, %u};\n\n", of_result, of_all, drawn.arguments + (drawn.has_result != 0));
}

static void write_call(unsigned number)
{
    draw_call(number);
    write_types();
    write_caller();
    write_function();
    write_answers();
}

static void write_list(unsigned count)
{
    unsigned i;

    write_c("const unsigned call_count = %u;\nconst call *const calls[] = {\n", count);
    for (i = 0; i < count; i++)
        write_c("    &call_%u,\n", i);
    write_c("};\n");
}

/* ---- all of it ---- */

static int find_description(uint64_t row)
{
    barkpaddle_description_fields fields = barkpaddle_description(row);

    description.row = row;
    description.integers = fields.integer;
    description.floats = fields.float_;
    description.float_width = fields.float_width;
    return fields.refusal == BARKPADDLE_ACCEPTED;
}

int main(int words, char **word)
{
    unsigned count = words == 5 ? (unsigned)strtoul(word[3], NULL, 10) : 0;
    unsigned i;

    if (count == 0) {
        printf("usage: generate ROW SEED COUNT FILE\n");
        return 2;
    }
    if (barkpaddle_version() != BARKPADDLE_VERSION || !find_description(strtoull(word[1], NULL, 10))) {
        printf("FAILED the library is of another version than its header, or has no description %s: tools/staticlib makes it\n", word[1]);
        return 1;
    }
    random_state = strtoull(word[2], NULL, 10);
    c_file = fopen(word[4], "w");
    if (c_file == NULL) {
        printf("FAILED %s can't be written\n", word[4]);
        return 1;
    }
    write_c("#include \"check.h\"\n\n");
    for (i = 0; i < count; i++)
        write_call(i);
    write_list(count);
    if (ferror(c_file) | fclose(c_file)) {
        printf("FAILED %s can't be written whole\n", word[4]);
        return 1;
    }
    check_sights(count, description.floats > 0);
    return failed != 0;
}
