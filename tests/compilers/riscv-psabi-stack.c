/* RISC-V by its own book: nine ints, then a record of two longs. Looked at: its first long, with no register left, behind a word.
 * sheet: 0 30 31 32 / 3 1 0 4 4 x9 / 3 2 16 8 0 2 / 5 0 8 8 0 / 5 0 8 8 8
 */
long seen;
struct record { long a, b; };
void probe(int a, int b, int c, int d, int e, int f, int g, int h, int ninth, struct record record) { seen = record.a; }
