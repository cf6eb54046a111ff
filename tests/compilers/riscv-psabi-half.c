/* RISC-V by its own book: seven ints, then an integer of 16 bytes. Looked at: its upper half, on the stack.
 * sheet: 0 30 31 32 / 3 1 0 4 4 x7 / 3 1 0 16 16
 * slot: 1
 */
long seen;
void probe(int a, int b, int c, int d, int e, int f, int g, __int128 wide) { seen = wide >> 64; }
