/* regparm(1): an integer of 8 bytes, which doesn't fit, then an int. Looked at: the int, in eax or on the stack.
 * sheet: 0 7 / 3 1 0 8 4 / 3 1 0 4 4
 */
int seen;
__attribute__((regparm(1))) void probe(long long wide, int next) { seen = next; }
