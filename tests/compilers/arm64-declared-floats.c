/* 64-bit Arm: eight floats, a float on the stack, a record of two doubles that is declared to be aligned to 16. Looked at: its first
 * double, 8 or 16 into the argument area.
 * sheet: 0 1 / 3 1 1 4 4 x9 / 3 2 16 16 0 2 / 5 2 8 8 0 / 5 2 8 8 8
 */
double seen;
struct __attribute__((aligned(16))) record { double a, b; };
void probe(float a, float b, float c, float d, float e, float f, float g, float h, float word, struct record record) { seen = record.a; }
