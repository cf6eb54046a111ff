/* RISC-V LP64D: a union of a float and an int. Looked at: the float, in fa0 or in a0.
 * sheet: 0 5 / 3 2 4 4 0 2 / 5 1 4 4 0 / 5 0 4 4 0
 */
float seen;
union both { float value; int bits; };
void probe(union both both) { seen = both.value; }
