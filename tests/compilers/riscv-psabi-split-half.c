/* RISC-V by its own book: seven ints, then a record of two longs. Looked at: its second long, on the stack.
 * sheet: 0 30 31 32 / 3 1 0 4 4 x7 / 3 2 16 8 0 2 / 5 0 8 8 0 / 5 0 8 8 8
 * slot: 1
 */
long seen;
struct record { long a, b; };
void probe(int a, int b, int c, int d, int e, int f, int g, struct record record) { seen = record.b; }
