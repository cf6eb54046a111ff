/* i386: a record of three ints comes back, through an address that is the first argument; then a char and a double. Looked at: the double.
 * sheet: 0 6 / 2 2 12 4 0 3 / 5 0 4 4 0 / 5 0 4 4 4 / 5 0 4 4 8 / 3 1 0 1 1 / 3 1 2 8 4
 */
double seen;
struct record { int a, b, c; };
struct record probe(char first, double value) { seen = value; return (struct record){1, 2, 3}; }
