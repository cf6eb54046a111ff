/* i386 Windows: a record of two ints of which the first is declared to be aligned to 8. Looked at: its second int, on the stack or behind
 * an address on the stack.
 * sheet: 0 25 / 3 2 8 8 0 2 / 5 0 4 8 0 / 5 0 4 4 4
 * slot: 1
 */
int seen;
struct record { __attribute__((aligned(8))) int a; int b; };
void probe(struct record record) { seen = record.b; }
