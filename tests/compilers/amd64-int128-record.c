/* SysV AMD64: five ints, an integer of 16 bytes, a record of a double and an int. Looked at: the int of the record, in r9 or on the stack.
 * sheet: 0 0 / 3 1 0 4 4 x5 / 3 1 0 16 16 / 3 2 16 8 0 2 / 5 2 8 8 0 / 5 0 4 4 8
 * slot: 1
 */
int seen;
struct record { double a; int b; };
void probe(int a, int b, int c, int d, int e, __int128 wide, struct record record) { seen = record.b; }
