/* regparm(3): a union whose one member is a float, then an int. Looked at: the int, in eax or, behind one word, in edx.
 * sheet: 0 9 / 3 2 4 4 0 1 / 5 1 4 4 0 / 3 1 0 4 4
 */
int seen;
union one { float value; };
__attribute__((regparm(3))) void probe(union one one, int next) { seen = next; }
