/* 64-bit Arm on Darwin: an int, then after the dots two ints. Looked at: the last int.
 * sheet: 0 2 / 1 / 3 1 0 4 4 / 4 1 0 4 4 x2
 */
int seen;
void callee(int first, ...);
void probe(void) { callee(1, 2, seen); }
