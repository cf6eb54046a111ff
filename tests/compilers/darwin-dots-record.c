/* 64-bit Arm on Darwin: an int, then after the dots a record of three longs, of which an address goes to the stack, and an int. Looked at:
 * the last int.
 * sheet: 0 2 / 1 / 3 1 0 4 4 / 4 2 24 8 0 3 / 5 0 8 8 0 / 5 0 8 8 8 / 5 0 8 8 16 / 4 1 0 4 4
 */
int seen;
struct record { long a, b, c; };
void callee(int first, ...);
void probe(void) { callee(1, (struct record){1, 2, 3}, seen); }
