/* RISC-V by its own book: nine ints, then a record that is aligned to 16. Looked at: its first long, at the next multiple of 16.
 * sheet: 0 30 31 32 / 3 1 0 4 4 x9 / 3 2 16 16 0 2 / 5 0 8 8 0 / 5 0 8 8 8
 */
long seen;
struct record { long a, b; } __attribute__((aligned(16)));
void probe(int a, int b, int c, int d, int e, int f, int g, int h, int ninth, struct record record) { seen = record.a; }
