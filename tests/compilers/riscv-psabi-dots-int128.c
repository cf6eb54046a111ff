/* RISC-V by its own book: an int, then after the dots an integer of 16 bytes. Looked at: its lower half, in an even register.
 * sheet: 0 30 31 32 / 1 / 3 1 0 4 4 / 4 1 0 16 16
 */
long seen;
void callee(int first, ...);
void probe(void) { callee(1, (__int128)seen); }
