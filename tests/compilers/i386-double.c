/* i386 Windows, where a double is aligned to 8: an int, then a double. Looked at: the double, 4 or 8 into the argument area.
 * sheet: 0 24 / 3 1 0 4 4 / 3 1 2 8 8
 */
double seen;
void probe(int first, double value) { seen = value; }
