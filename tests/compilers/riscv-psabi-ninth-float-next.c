/* RISC-V by its own book: nine floats, then an int. Looked at: the int, behind the ninth float.
 * sheet: 0 30 31 32 / 3 1 1 4 4 x9 / 3 1 0 4 4
 */
int seen;
void probe(float a, float b, float c, float d, float e, float f, float g, float h, float ninth, int next) { seen = next; }
