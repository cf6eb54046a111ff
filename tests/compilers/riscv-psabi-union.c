/* RISC-V by its own book: a union of a float and an int. Looked at: the float, in a0 or in fa0.
 * sheet: 0 30 31 32 / 3 2 4 4 0 2 / 5 1 4 4 0 / 5 0 4 4 0
 */
float seen;
union both { float value; int bits; };
void probe(union both both) { seen = both.value; }
