/* RISC-V by its own book: seven ints, then after the dots a record of two longs that is aligned to 8. Looked at: its first long, in the
 * last register.
 * sheet: 0 30 31 32 / 1 / 3 1 0 4 4 x7 / 4 2 16 8 0 2 / 5 0 8 8 0 / 5 0 8 8 8
 */
struct record { long a, b; } seen;
void callee(int a, int b, int c, int d, int e, int f, int g, ...);
void probe(void) { callee(1, 2, 3, 4, 5, 6, 7, seen); }
