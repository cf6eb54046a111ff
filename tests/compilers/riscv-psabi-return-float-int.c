/* RISC-V by its own book: a record of a float and a long comes back. Looked at: where the caller finds the long.
 * sheet: 0 30 31 32 / 2 2 16 8 0 2 / 5 1 4 4 0 / 5 0 8 8 8
 * slot: 1
 * returns
 */
long seen;
struct record { float a; long b; } callee(void);
void probe(void) { seen = callee().b; }
