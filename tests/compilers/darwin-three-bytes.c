/* 64-bit Arm on Darwin: eight ints, a record of three chars on the stack, a char. Looked at: the char.
 * sheet: 0 2 / 3 1 0 4 4 x8 / 3 2 3 1 0 3 / 5 0 1 1 0 / 5 0 1 1 1 / 5 0 1 1 2 / 3 1 0 1 1
 */
char seen;
struct record { char a, b, c; };
void probe(int a, int b, int c, int d, int e, int f, int g, int h, struct record record, char next) { seen = next; }
