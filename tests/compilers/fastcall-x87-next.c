/* fastcall: a long double, then an int. Looked at: the int, in ecx or on the stack.
 * sheet: 0 22 / 3 1 3 12 4 / 3 1 0 4 4
 */
int seen;
__attribute__((fastcall)) void probe(long double value, int next) { seen = next; }
