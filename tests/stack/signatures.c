/* The functions of signatures.h, each of which hands over what it finds for its parameters, and their table. */
#include "check.h"

/* ---- a list in parentheses, item by item: WHAT(item, number) for each, BETWEEN() between two; the numbers count down to 1 ---- */

#define EACH(what, between, list) EACH_OF(what, between, OPEN list)
#define EACH_OF(what, between, ...) PASTE(EACH_, NUMBER_OF(__VA_ARGS__))(what, between, __VA_ARGS__)
#define OPEN(...) __VA_ARGS__
#define PASTE(a, b) PASTE_AS_IT_IS(a, b)
#define PASTE_AS_IT_IS(a, b) a##b
#define NUMBER_OF(...) FIFTEENTH(__VA_ARGS__, 14, 13, 12, 11, 10, 9, 8, 7, 6, 5, 4, 3, 2, 1, 0)
#define FIFTEENTH(a, b, c, d, e, f, g, h, i, j, k, l, m, n, number, ...) number

#define EACH_1(what, between, item) what(item, 1)
#define EACH_2(what, between, item, ...) what(item, 2) between() EACH_1(what, between, __VA_ARGS__)
#define EACH_3(what, between, item, ...) what(item, 3) between() EACH_2(what, between, __VA_ARGS__)
#define EACH_4(what, between, item, ...) what(item, 4) between() EACH_3(what, between, __VA_ARGS__)
#define EACH_5(what, between, item, ...) what(item, 5) between() EACH_4(what, between, __VA_ARGS__)
#define EACH_6(what, between, item, ...) what(item, 6) between() EACH_5(what, between, __VA_ARGS__)
#define EACH_7(what, between, item, ...) what(item, 7) between() EACH_6(what, between, __VA_ARGS__)
#define EACH_8(what, between, item, ...) what(item, 8) between() EACH_7(what, between, __VA_ARGS__)
#define EACH_9(what, between, item, ...) what(item, 9) between() EACH_8(what, between, __VA_ARGS__)
#define EACH_10(what, between, item, ...) what(item, 10) between() EACH_9(what, between, __VA_ARGS__)
#define EACH_11(what, between, item, ...) what(item, 11) between() EACH_10(what, between, __VA_ARGS__)
#define EACH_12(what, between, item, ...) what(item, 12) between() EACH_11(what, between, __VA_ARGS__)
#define EACH_13(what, between, item, ...) what(item, 13) between() EACH_12(what, between, __VA_ARGS__)
#define EACH_14(what, between, item, ...) what(item, 14) between() EACH_13(what, between, __VA_ARGS__)

#define COMMA() ,
#define NOTHING()

/* ---- results ---- */

typedef void type_v;

static void give_v(void)
{
}

/* A result of this type. */
#define GIVES(type) \
    static type_##type give_##type(void) \
    { \
        type_##type given; \
\
        memcpy(&given, to_return, sizeof given); \
        return given; \
    }

GIVES(c)
GIVES(i)
GIVES(q)
GIVES(f)
GIVES(d)
GIVES(h)
GIVES(x)
GIVES(b3)
GIVES(b16)
GIVES(b17)
GIVES(l2)
GIVES(l3)
GIVES(l5)
GIVES(q1)
GIVES(f3)
GIVES(f5)
GIVES(d2)
GIVES(d3)
GIVES(x1)
GIVES(ld)
GIVES(dl)
GIVES(if2)
GIVES(lx)

/* ---- functions ---- */

#define PARAMETER(type, number) type_##type p##number
#define SEE(type, number) see(&p##number, sizeof p##number);
#define SEE_BEHIND(type, number) \
    type_##type p##number##_behind = va_arg(list, type_##type); \
    see(&p##number##_behind, sizeof p##number##_behind);

#define CALL(name, result, parameters) \
    type_##result call_##name(EACH(PARAMETER, COMMA, parameters)); \
    type_##result call_##name(EACH(PARAMETER, COMMA, parameters)) \
    { \
        EACH(SEE, NOTHING, parameters) \
        return give_##result(); \
    }

/* The last named parameter is number 1. */
#define DOTS(name, result, parameters, behind) \
    type_##result call_##name(EACH(PARAMETER, COMMA, parameters), ...); \
    type_##result call_##name(EACH(PARAMETER, COMMA, parameters), ...) \
    { \
        va_list list; \
\
        EACH(SEE, NOTHING, parameters) \
        va_start(list, p1); \
        EACH(SEE_BEHIND, NOTHING, behind) \
        va_end(list); \
        return give_##result(); \
    }

#include "signatures.h"
#undef CALL
#undef DOTS

/* ---- their table ---- */

#define CALL(name, result, parameters) {#name, (void (*)(void))call_##name, #result, #parameters, NULL},
#define DOTS(name, result, parameters, behind) {#name, (void (*)(void))call_##name, #result, #parameters, #behind},

const signature signatures[] = {
#include "signatures.h"
};

const unsigned long signature_count = sizeof signatures / sizeof signatures[0];
