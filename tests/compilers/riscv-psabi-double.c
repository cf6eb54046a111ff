/* RISC-V by its own book: a double. Looked at: its register.
 * sheet: 0 30 31 32 / 3 1 2 8 8
 */
double seen;
void probe(double value) { seen = value; }
