/*
 * The functions that are called, for signatures.c, which includes this more than once. A line is CALL(name, result, (parameters)), or
 * DOTS(name, result, (named parameters), (what is passed behind the dots)); check.h has the types.
 */

/* the call that broke: README.md */
CALL(broke, v, (l, l, l, l, l, l2, l, l))

/* integers, narrow ones and wide ones among them */
CALL(seven_longs, v, (l, l, l, l, l, l, l))
CALL(narrow, v, (c, w, i, l, p, c, w, i, c, l, w, i))
CALL(wide, v, (q, l, q, l, l, q))
CALL(wide_on_the_stack, v, (l, l, l, l, l, l, q, l, l, q))
CALL(wide_and_one_register, v, (l, l, l, l, l, q, l, l))
CALL(wide_behind_a_word, v, (l, l, l, l, l, l, l, q, i))

/* floats */
CALL(ten_doubles, v, (d, d, d, d, d, d, d, d, d, d))
CALL(ten_singles, v, (f, f, f, f, f, f, f, f, f, f))
CALL(ten_quads, v, (h, h, d, h, h, f, h, h, d, h))
CALL(x87, v, (x, l, x, d, x))
CALL(x87_behind_a_word, v, (l, l, l, l, l, l, l, x, l, x))
CALL(all_formats, v, (f, d, x, h, f, d, x, h, f, d, x, h))
CALL(both_banks, v, (l, d, l, d, l, d, l, d, l, d, l, d, l, d))
CALL(both_banks_run_out, v, (d, d, d, d, d, d, d, d, f, l, l, l, l, i))

/* records of bytes */
CALL(few_bytes, v, (b1, b2, b3, b5, b7, b8, b9, b15))
CALL(many_bytes, v, (b40, b1, b33, b17, b16, b3, b16, b40, l))
CALL(bytes_on_the_stack, v, (l, l, l, l, l, l, b1, b2, b3, b5, b7, b9, i))

/* records of integers */
CALL(pairs, v, (l2, l2, l2, l2, l))
CALL(pairs_and_longs, v, (l2, l, l2, l2, l, l))
CALL(large, v, (l3, l, l5, i, l3, c))
CALL(small, v, (w3, i3, li, i3, w3, li, i))
CALL(aligned_to_16, v, (l, q1, l, q1, l, q1, l, q1, l))

/* records of floats, and of both */
CALL(singles, v, (f1, f2, f3, f4, f5, f3, f4, f1, f2))
CALL(doubles, v, (d1, d2, d3, d2, d2, d2, d, d2))
CALL(seven_doubles_and_two, v, (d, d, d, d, d, d, d, d2, d, d))
CALL(mixed, v, (ld, dl, cd, fi, fl, if2, df, ld, dl))
CALL(no_integer_left, v, (l, l, l, l, l, l, ld, d, dl, d2))
CALL(no_float_left, v, (d, d, d, d, d, d, d, d, ld, l, dl, l2))
CALL(x87_records, v, (x1, l, lx, i, x2, l, x1))
CALL(x87_records_behind_words, v, (l, l, l, l, l, l, l, x1, c, lx, l, x))
CALL(empty, v, (empty, l, empty, d, empty, l2))

/* results */
CALL(gives_byte, c, (l, l, l, l, l, l2, l))
CALL(gives_int, i, (d, d, d, d, d, d, d, d, d))
CALL(gives_wide, q, (l, l, l, l, l, l, i))
CALL(gives_single, f, (f, l2, f5))
CALL(gives_double, d, (ld, l3))
CALL(gives_quad, h, (h, x, h))
CALL(gives_x87, x, (x, l, x1))
CALL(gives_bytes, b3, (b3, b17))
CALL(gives_16_bytes, b16, (b16, b17, l))
CALL(gives_pair, l2, (l, l, l, l, l, l2, l, l))
CALL(gives_long_and_double, ld, (ld, l5))
CALL(gives_double_and_long, dl, (dl, l5))
CALL(gives_two_doubles, d2, (d2, d3))
CALL(gives_three_singles, f3, (f3, f5))
CALL(gives_int_and_singles, if2, (if2, x))
CALL(gives_wide_record, q1, (q1, q1))
CALL(gives_x87_record, x1, (x1, l))
/* in memory: the address that is passed takes a register */
CALL(gives_17_bytes, b17, (l, l, l, l, l, l2, l))
CALL(gives_three_longs, l3, (l, l, l, l, l2, l, l))
CALL(gives_five_longs, l5, (l2, l2, l2, l))
CALL(gives_five_singles, f5, (f5, l, f4))
CALL(gives_three_doubles, d3, (d3, d2, i))
CALL(gives_long_and_x87, lx, (lx, l, l, l, l, l2, x))

/* behind the dots */
DOTS(dots, v, (i), (l, d, x, p, i, l2, ld, l3))
DOTS(dots_of_doubles, v, (i, d), (d, d, d, d, d, d, d, d, d, l))
DOTS(dots_behind_the_call_that_broke, v, (l, l, l, l, l, l2), (l, l, x, l, d))
DOTS(dots_on_the_stack, v, (l, l, l, l, l, l, l), (i, x, b3, d, l2, d2, b17, p))
DOTS(dots_of_records, v, (d), (f2, b9, f3, dl, x1, if2, b40, q1, lx, i3, d2))
DOTS(dots_give_five_longs, l5, (p, l2), (l, l2, d, l, x, l))
DOTS(dots_give_x87, x, (x), (x, l, x, d))
