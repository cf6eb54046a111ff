/* 64-bit Arm: a record of two floats, the second of them packed and handed in as aligned to 1. Looked at: the first float, in d0 (s0 is
 * its lower half) or in x0.
 * sheet: 0 1 / 3 2 8 4 0 2 / 5 1 4 4 0 / 5 1 4 1 4
 */
float seen;
struct record { float a; float b __attribute__((packed)); };
void probe(struct record record) { seen = record.a; }
