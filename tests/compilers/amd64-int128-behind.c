/* SysV AMD64: six ints, an int on the stack, an integer of 16 bytes. Looked at: its lower half, 8 or 16 into the argument area.
 * sheet: 0 0 / 3 1 0 4 4 x7 / 3 1 0 16 16
 */
long seen;
void probe(int a, int b, int c, int d, int e, int f, int word, __int128 wide) { seen = wide; }
