/* i386 with -freg-struct-return, and mingw: a union whose one member is a double comes back. Looked at: where the caller finds it, in st0
 * or in eax and edx.
 * sheet: 0 10 / 2 2 8 4 0 1 / 5 2 8 4 0
 * options: -freg-struct-return
 * returns
 */
union one { double value; } seen;
union one callee(void);
void probe(void) { seen = callee(); }
