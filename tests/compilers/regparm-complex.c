/* regparm(3): a _Complex float, then an int. Looked at: the int, in eax or, behind two words, in ecx.
 * sheet: 0 9 / 3 2 8 4 3 2 / 5 1 4 4 0 / 5 1 4 4 4 / 3 1 0 4 4
 */
int seen;
__attribute__((regparm(3))) void probe(_Complex float value, int next) { seen = next; }
