/* fastcall: a record of one char, then an int. Looked at: the int, in ecx or in edx.
 * sheet: 0 22 / 3 2 1 1 0 1 / 5 0 1 1 0 / 3 1 0 4 4
 */
int seen;
struct record { char value; };
__attribute__((fastcall)) void probe(struct record record, int next) { seen = next; }
