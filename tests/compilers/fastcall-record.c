/* fastcall on Windows: a record of 12 bytes, then an int. Looked at: the int, in ecx or on the stack.
 * sheet: 0 29 / 3 2 12 4 0 3 / 5 0 4 4 0 / 5 0 4 4 4 / 5 0 4 4 8 / 3 1 0 4 4
 */
int seen;
struct record { int a, b, c; };
__attribute__((fastcall)) void probe(struct record record, int next) { seen = next; }
