/* RISC-V by its own book: a float. Looked at: its register.
 * sheet: 0 30 31 32 / 3 1 1 4 4
 */
float seen;
void probe(float value) { seen = value; }
