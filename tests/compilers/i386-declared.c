/* i386: an int, then a record of two ints that is declared to be aligned to 8. Looked at: its first int, 4 or 8 into the argument area.
 * sheet: 0 6 / 3 1 0 4 4 / 3 2 8 8 0 2 / 5 0 4 4 0 / 5 0 4 4 4
 */
int seen;
struct __attribute__((aligned(8))) record { int a, b; };
void probe(int first, struct record record) { seen = record.a; }
