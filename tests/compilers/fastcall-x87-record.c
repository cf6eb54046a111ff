/* fastcall: a record of a long double, then an int. Looked at: the int, in ecx or on the stack.
 * sheet: 0 22 / 3 2 12 4 2 1 / 5 3 12 4 0 / 3 1 0 4 4
 */
int seen;
struct record { long double value; };
__attribute__((fastcall)) void probe(struct record record, int next) { seen = next; }
