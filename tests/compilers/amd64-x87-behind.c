/* SysV AMD64: six ints, an int on the stack, a long double. Looked at: the long double, 8 or 16 into the argument area.
 * sheet: 0 0 / 3 1 0 4 4 x7 / 3 1 3 16 16
 */
long double seen;
void probe(int a, int b, int c, int d, int e, int f, int word, long double value) { seen = value; }
