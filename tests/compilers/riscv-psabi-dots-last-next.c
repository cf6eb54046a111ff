/* RISC-V by its own book: seven ints, then after the dots an integer of 16 bytes and a long. Looked at: the long, behind it.
 * sheet: 0 30 31 32 / 1 / 3 1 0 4 4 x7 / 4 1 0 16 16 / 4 1 0 8 8
 */
long seen;
void callee(int a, int b, int c, int d, int e, int f, int g, ...);
void probe(void) { callee(1, 2, 3, 4, 5, 6, 7, (__int128)8, seen); }
