/* SysV AMD64: five ints, an integer of 16 bytes, an int. Looked at: the last int, in r9 or on the stack.
 * sheet: 0 0 / 3 1 0 4 4 / 3 1 0 4 4 / 3 1 0 4 4 / 3 1 0 4 4 / 3 1 0 4 4 / 3 1 0 16 16 / 3 1 0 4 4
 */
int seen;
void probe(int a, int b, int c, int d, int e, __int128 wide, int next) { seen = next; }
