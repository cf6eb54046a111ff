/* Windows x64: five ints. Looked at: the fifth.
 * sheet: 0 4 / 3 1 0 4 4 x5
 */
int seen;
void probe(int a, int b, int c, int d, int e) { seen = e; }
