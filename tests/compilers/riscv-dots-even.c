/* RISC-V LP64D: an int, then after the dots an integer of 16 bytes. Looked at: the register of its lower half, a1 or a2.
 * sheet: 0 5 / 1 / 3 1 0 4 4 / 4 1 0 16 16
 */
long seen;
void callee(int first, ...);
void probe(void) { callee(1, (__int128)seen); }
