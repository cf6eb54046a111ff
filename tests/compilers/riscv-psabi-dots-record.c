/* RISC-V by its own book: an int, then after the dots a record of two longs that is aligned to 16. Looked at: its first long, in an even
 * register.
 * sheet: 0 30 31 32 / 1 / 3 1 0 4 4 / 4 2 16 16 0 2 / 5 0 8 8 0 / 5 0 8 8 8
 */
struct record { long a, b; } __attribute__((aligned(16))) seen;
void callee(int first, ...);
void probe(void) { callee(1, seen); }
