/* 64-bit Arm on Darwin, a function with dots: eight ints, two chars on the stack, nothing behind the dots. Looked at: where the caller
 * puts the second char.
 * sheet: 0 2 / 1 / 3 1 0 4 4 x8 / 3 1 0 1 1 x2
 */
char seen;
void callee(int a, int b, int c, int d, int e, int f, int g, int h, char first, char second, ...);
void probe(void) { callee(1, 2, 3, 4, 5, 6, 7, 8, 9, seen); }
