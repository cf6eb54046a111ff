/* SysV AMD64: a record of one long, aligned to 16 so that its second eightbyte is padding, then an int. Looked at: the int, in rsi or in
 * rdx.
 * sheet: 0 0 / 3 2 16 16 0 1 / 5 0 8 16 0 / 3 1 0 4 4
 */
int seen;
struct record { _Alignas(16) long value; };
void probe(struct record record, int next) { seen = next; }
