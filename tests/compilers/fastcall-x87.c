/* fastcall: a long double. Looked at: itself, in ecx and edx or on the stack.
 * sheet: 0 22 / 3 1 3 12 4
 */
long double seen;
__attribute__((fastcall)) void probe(long double value) { seen = value; }
