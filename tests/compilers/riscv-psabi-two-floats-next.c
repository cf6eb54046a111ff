/* RISC-V by its own book: a record of two floats, then a float. Looked at: the last.
 * sheet: 0 30 31 32 / 3 2 8 4 0 2 / 5 1 4 4 0 / 5 1 4 4 4 / 3 1 1 4 4
 */
float seen;
struct record { float a, b; };
void probe(struct record record, float next) { seen = next; }
