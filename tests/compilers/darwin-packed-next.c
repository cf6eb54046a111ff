/* 64-bit Arm on Darwin: eight ints, a char, a short and an int on the stack. Looked at: the int.
 * sheet: 0 2 / 3 1 0 4 4 x8 / 3 1 0 1 1 / 3 1 0 2 2 / 3 1 0 4 4
 */
int seen;
void probe(int a, int b, int c, int d, int e, int f, int g, int h, char first, short second, int third) { seen = third; }
