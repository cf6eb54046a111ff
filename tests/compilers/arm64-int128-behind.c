/* 64-bit Arm: eight ints, an int on the stack, an integer of 16 bytes. Looked at: its lower half, 8 or 16 into the argument area.
 * sheet: 0 1 / 3 1 0 4 4 x9 / 3 1 0 16 16
 */
long long seen;
void probe(int a, int b, int c, int d, int e, int f, int g, int h, int word, __int128 wide) { seen = wide; }
