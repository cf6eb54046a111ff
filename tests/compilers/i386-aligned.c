/* i386 Windows, where a double is aligned to 8: an int, then a record of a double. Looked at: the double, 4 or 8 into the argument area.
 * sheet: 0 24 / 3 1 0 4 4 / 3 2 8 8 2 1 / 5 2 8 8 0
 */
double seen;
struct record { double value; };
void probe(int first, struct record record) { seen = record.value; }
