/* RISC-V by its own book: a record of two floats comes back. Looked at: where the caller finds the first.
 * sheet: 0 30 31 32 / 2 2 8 4 0 2 / 5 1 4 4 0 / 5 1 4 4 4
 * returns
 */
float seen;
struct record { float a, b; } callee(void);
void probe(void) { seen = callee().a; }
