/* SysV AMD64: five ints, then an integer of 16 bytes. Looked at: its lower half, in r9 or on the stack.
 * sheet: 0 0 / 3 1 0 4 4 / 3 1 0 4 4 / 3 1 0 4 4 / 3 1 0 4 4 / 3 1 0 4 4 / 3 1 0 16 16
 */
long seen;
void probe(int a, int b, int c, int d, int e, __int128 wide) { seen = wide; }
