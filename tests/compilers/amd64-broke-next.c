/* SysV AMD64, the call that broke: five ints, a record of two longs, a long. Looked at: the long, in r9 or on the stack.
 * sheet: 0 0 / 3 1 0 4 4 x5 / 3 2 16 8 0 2 / 5 0 8 8 0 / 5 0 8 8 8 / 3 1 0 8 8
 */
long seen;
struct record { long a, b; };
void probe(int a, int b, int c, int d, int e, struct record record, long next) { seen = next; }
