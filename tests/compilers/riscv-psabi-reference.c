/* RISC-V by its own book: eight ints, then a record of three longs. Looked at: its first long, behind an address on the stack.
 * sheet: 0 30 31 32 / 3 1 0 4 4 x8 / 3 2 24 8 0 3 / 5 0 8 8 0 / 5 0 8 8 8 / 5 0 8 8 16
 */
long seen;
struct record { long a, b, c; };
void probe(int a, int b, int c, int d, int e, int f, int g, int h, struct record record) { seen = record.a; }
