/* SysV AMD64, the call that broke: five ints, a record of two longs, two longs. Looked at: the last long, on the stack behind the record.
 * sheet: 0 0 / 3 1 0 4 4 x5 / 3 2 16 8 0 2 / 5 0 8 8 0 / 5 0 8 8 8 / 3 1 0 8 8 x2
 */
long seen;
struct record { long a, b; };
void probe(int a, int b, int c, int d, int e, struct record record, long next, long last) { seen = last; }
