/* RISC-V by its own book: an int, then after the dots a record of two longs that is aligned to 8. Looked at: its first long, in the next
 * register.
 * sheet: 0 30 31 32 / 1 / 3 1 0 4 4 / 4 2 16 8 0 2 / 5 0 8 8 0 / 5 0 8 8 8
 */
struct record { long a, b; } seen;
void callee(int first, ...);
void probe(void) { callee(1, seen); }
