/* RISC-V by its own book: nine floats. Looked at: the ninth, which finds no float register.
 * sheet: 0 30 31 32 / 3 1 1 4 4 x9
 */
float seen;
void probe(float a, float b, float c, float d, float e, float f, float g, float h, float ninth) { seen = ninth; }
