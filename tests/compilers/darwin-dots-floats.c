/* 64-bit Arm on Darwin: eight floats, a float on the stack, then after the dots a record of three floats. Looked at: its first float, 4 or
 * 8 into the argument area.
 * sheet: 0 2 / 1 / 3 1 1 4 4 x9 / 4 2 12 4 0 3 / 5 1 4 4 0 / 5 1 4 4 4 / 5 1 4 4 8
 */
float seen;
struct record { float a, b, c; };
void callee(float a, float b, float c, float d, float e, float f, float g, float h, float first, ...);
void probe(void) { callee(1, 2, 3, 4, 5, 6, 7, 8, 9, (struct record){seen, 2, 3}); }
