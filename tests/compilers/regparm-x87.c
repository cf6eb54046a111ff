/* regparm(3): a long double. Looked at: itself, in eax, edx and ecx or on the stack.
 * sheet: 0 9 / 3 1 3 12 4
 */
long double seen;
__attribute__((regparm(3))) void probe(long double value) { seen = value; }
