/* fastcall: an integer of 8 bytes, then an int. Looked at: the int, in ecx or on the stack.
 * sheet: 0 22 / 3 1 0 8 4 / 3 1 0 4 4
 */
int seen;
__attribute__((fastcall)) void probe(long long wide, int next) { seen = next; }
