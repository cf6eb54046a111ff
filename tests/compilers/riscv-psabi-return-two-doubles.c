/* RISC-V by its own book: a record of two doubles comes back. Looked at: where the caller finds the second.
 * sheet: 0 30 31 32 / 2 2 16 8 0 2 / 5 2 8 8 0 / 5 2 8 8 8
 * slot: 1
 * returns
 */
double seen;
struct record { double a, b; } callee(void);
void probe(void) { seen = callee().b; }
