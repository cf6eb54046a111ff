/* SysV AMD64: a union of a long double and an integer of 16 bytes, then an int. Looked at: the int, in rdi or, behind two eightbytes, in
 * rdx.
 * sheet: 0 0 / 3 2 16 16 0 2 / 5 3 16 16 0 / 5 0 16 16 0 / 3 1 0 4 4
 */
int seen;
union both { long double value; __int128 bits; };
void probe(union both both, int next) { seen = next; }
