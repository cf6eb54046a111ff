/* RISC-V by its own book: a record of a double and a float. Looked at: the double, which LP64F has no register for.
 * sheet: 0 30 31 32 / 3 2 16 8 0 2 / 5 2 8 8 0 / 5 1 4 4 8
 */
double seen;
struct record { double a; float b; };
void probe(struct record record) { seen = record.a; }
