/* SysV AMD64: seven doubles, a float of 128 bits, a record of a double and an int. Looked at: the int of the record, in rdi or on the
 * stack.
 * sheet: 0 0 / 3 1 2 8 8 x7 / 3 1 4 16 16 / 3 2 16 8 0 2 / 5 2 8 8 0 / 5 0 4 4 8
 * slot: 1
 */
int seen;
struct record { double a; int b; };
void probe(double a, double b, double c, double d, double e, double f, double g, __float128 h, struct record record) { seen = record.b; }
