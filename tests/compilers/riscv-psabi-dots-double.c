/* RISC-V by its own book: a double, then after the dots one more. Looked at: the second, in an integer register.
 * sheet: 0 30 31 32 / 1 / 3 1 2 8 8 / 4 1 2 8 8
 */
double seen;
void callee(double first, ...);
void probe(void) { callee(1, seen); }
