/* RISC-V by its own book: a record of three longs comes back. Looked at: where the caller finds it, behind the address that it handed over.
 * sheet: 0 30 31 32 / 2 2 24 8 0 3 / 5 0 8 8 0 / 5 0 8 8 8 / 5 0 8 8 16
 * returns
 */
long seen;
struct record { long a, b, c; } callee(void);
void probe(void) { seen = callee().a; }
