/* Windows x64: four ints, a record of three ints, an int. Looked at: the last int.
 * sheet: 0 4 / 3 1 0 4 4 x4 / 3 2 12 4 0 3 / 5 0 4 4 0 / 5 0 4 4 4 / 5 0 4 4 8 / 3 1 0 4 4
 */
int seen;
struct record { int a, b, c; };
void probe(int a, int b, int c, int d, struct record record, int next) { seen = next; }
