/* RISC-V by its own book: a record of two floats. Looked at: the first.
 * sheet: 0 30 31 32 / 3 2 8 4 0 2 / 5 1 4 4 0 / 5 1 4 4 4
 */
float seen;
struct record { float a, b; };
void probe(struct record record) { seen = record.a; }
