/* RISC-V by its own book: a record of a float and a long. Looked at: the long.
 * sheet: 0 30 31 32 / 3 2 16 8 0 2 / 5 1 4 4 0 / 5 0 8 8 8
 * slot: 1
 */
long seen;
struct record { float a; long b; };
void probe(struct record record) { seen = record.b; }
