/* RISC-V by its own book: seven ints, then a record of three floats, which are no pair. Looked at: the first, in the last register.
 * sheet: 0 30 31 32 / 3 1 0 4 4 x7 / 3 2 12 4 0 3 / 5 1 4 4 0 / 5 1 4 4 4 / 5 1 4 4 8
 */
float seen;
struct record { float a, b, c; };
void probe(int a, int b, int c, int d, int e, int f, int g, struct record record) { seen = record.a; }
