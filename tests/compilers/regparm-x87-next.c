/* regparm(3): a long double, then an int. Looked at: the int, in eax or on the stack.
 * sheet: 0 9 / 3 1 3 12 4 / 3 1 0 4 4
 */
int seen;
__attribute__((regparm(3))) void probe(long double value, int next) { seen = next; }
