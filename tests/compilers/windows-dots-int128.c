/* 64-bit Arm on Windows, a function with dots: seven ints, then after the dots an integer of 16 bytes. Looked at: its lower half, in x7 or
 * on the stack.
 * sheet: 0 3 / 1 / 3 1 0 4 4 x7 / 4 1 0 16 16
 */
long long seen;
void callee(int a, int b, int c, int d, int e, int f, int g, ...);
void probe(void) { callee(1, 2, 3, 4, 5, 6, 7, (__int128)seen); }
