/* i386: an int, a long double of 12 bytes, an int. Looked at: the last int.
 * sheet: 0 6 / 3 1 0 4 4 / 3 1 3 12 4 / 3 1 0 4 4
 */
int seen;
void probe(int first, long double value, int next) { seen = next; }
