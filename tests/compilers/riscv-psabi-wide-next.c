/* RISC-V by its own book: an integer of 32 bytes, then an int. Looked at: the int, behind an address or behind four words.
 * sheet: 0 30 31 32 / 3 1 0 32 8 / 3 1 0 4 4
 * options: -Xclang -fexperimental-max-bitint-width=256
 */
int seen;
void probe(_BitInt(256) wide, int next) { seen = next; }
