/* SysV AMD64: a packed record of a char and an int, the int handed in as aligned to 1, then an int. Looked at: the last int, in rdi or in
 * rsi.
 * sheet: 0 0 / 3 2 5 1 0 2 / 5 0 1 1 0 / 5 0 4 1 1 / 3 1 0 4 4
 */
int seen;
struct __attribute__((packed)) record { char a; int b; };
void probe(struct record record, int next) { seen = next; }
