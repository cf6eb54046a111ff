/* i386: an int, then a float of 128 bits. Looked at: the float, 4 or 16 into the argument area.
 * sheet: 0 6 / 3 1 0 4 4 / 3 1 4 16 16
 */
__float128 seen;
void probe(int first, __float128 value) { seen = value; }
