/* SysV AMD64: a record of a float of 128 bits, then a float. Looked at: the float, in xmm0 or in xmm1.
 * sheet: 0 0 / 3 2 16 16 2 1 / 5 4 16 16 0 / 3 1 1 4 4
 */
float seen;
struct record { __float128 value; };
void probe(struct record record, float next) { seen = next; }
