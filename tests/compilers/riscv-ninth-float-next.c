/* RISC-V LP64D: nine floats, then an int. Looked at: the int, in a0 or in a1.
 * sheet: 0 5 / 3 1 1 4 4 / 3 1 1 4 4 / 3 1 1 4 4 / 3 1 1 4 4 / 3 1 1 4 4 / 3 1 1 4 4 / 3 1 1 4 4 / 3 1 1 4 4 / 3 1 1 4 4 / 3 1 0 4 4
 */
int seen;
void probe(float a, float b, float c, float d, float e, float f, float g, float h, float ninth, int next) { seen = next; }
