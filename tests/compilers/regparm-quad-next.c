/* regparm(3): a float of 128 bits, then an int. Looked at: the int, in eax or on the stack.
 * sheet: 0 9 / 3 1 4 16 16 / 3 1 0 4 4
 */
int seen;
__attribute__((regparm(3))) void probe(__float128 value, int next) { seen = next; }
