/* i386: an int, then a record of a float of 128 bits. Looked at: the float, 4 or 16 into the argument area.
 * sheet: 0 6 / 3 1 0 4 4 / 3 2 16 16 2 1 / 5 4 16 16 0
 */
__float128 seen;
struct record { __float128 value; };
void probe(int first, struct record record) { seen = record.value; }
