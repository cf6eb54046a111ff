/* 64-bit Arm: an int, then a record of an integer of 16 bytes. Looked at: its lower half, in x1 or in x2.
 * sheet: 0 1 / 3 1 0 4 4 / 3 2 16 16 0 1 / 5 0 16 16 0
 */
long long seen;
struct record { __int128 wide; };
void probe(int first, struct record record) { seen = record.wide; }
