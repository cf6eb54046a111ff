/* fastcall on Windows with MSVC, where a long double is a double: one, then an int. Looked at: the int, in ecx or on the stack.
 * sheet: 0 29 / 3 1 2 8 8 / 3 1 0 4 4
 */
int seen;
__attribute__((fastcall)) void probe(long double value, int next) { seen = next; }
