/* 64-bit Arm: a union of an array of two doubles and a record of two. Looked at: the second double, in d1 or in x1.
 * sheet: 0 1 / 3 2 16 8 0 4 / 5 2 8 8 0 / 5 2 8 8 8 / 5 2 8 8 0 / 5 2 8 8 8
 * slot: 1
 */
double seen;
union both { double list[2]; struct { double x, y; } point; };
void probe(union both both) { seen = both.point.y; }
