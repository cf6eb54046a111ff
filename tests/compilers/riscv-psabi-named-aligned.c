/* RISC-V by its own book: an int, then a record of two longs that is aligned to 16, both named. Looked at: its first long, in the next
 * register.
 * sheet: 0 30 31 32 / 3 1 0 4 4 / 3 2 16 16 0 2 / 5 0 8 8 0 / 5 0 8 8 8
 */
long seen;
struct record { long a, b; } __attribute__((aligned(16)));
void probe(int a, struct record record) { seen = record.a; }
