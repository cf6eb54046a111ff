/* 64-bit Arm: eight ints, an int on the stack, a record of two long longs that is declared to be aligned to 16. Looked at: its first long
 * long, 8 or 16 into the argument area.
 * sheet: 0 1 / 3 1 0 4 4 x9 / 3 2 16 16 0 2 / 5 0 8 8 0 / 5 0 8 8 8
 */
long long seen;
struct __attribute__((aligned(16))) record { long long a, b; };
void probe(int a, int b, int c, int d, int e, int f, int g, int h, int word, struct record record) { seen = record.a; }
