/* i386 with -freg-struct-return, and mingw: a record of a long double comes back. Looked at: where the caller finds it, in st0 or behind
 * the address that it handed over.
 * sheet: 0 10 / 2 2 12 4 2 1 / 5 3 12 4 0
 * options: -freg-struct-return
 * returns
 */
struct record { long double value; } seen;
struct record callee(void);
void probe(void) { seen = callee(); }
