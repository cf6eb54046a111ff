/* RISC-V LP64D: nine floats. Looked at: the ninth, in a0 or on the stack.
 * sheet: 0 5 / 3 1 1 4 4 / 3 1 1 4 4 / 3 1 1 4 4 / 3 1 1 4 4 / 3 1 1 4 4 / 3 1 1 4 4 / 3 1 1 4 4 / 3 1 1 4 4 / 3 1 1 4 4
 */
float seen;
void probe(float a, float b, float c, float d, float e, float f, float g, float h, float ninth) { seen = ninth; }
