/* SysV AMD64: a union of two long doubles comes back. Looked at: where the caller finds it, in st0 or behind the address that it handed
 * over.
 * sheet: 0 0 / 2 2 16 16 0 2 / 5 3 16 16 0 / 5 3 16 16 0
 * returns
 */
union both { long double a, b; };
long double seen;
union both callee(void);
void probe(void) { seen = callee().a; }
