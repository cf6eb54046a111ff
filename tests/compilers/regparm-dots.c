/* regparm(3), a function with dots: an int. Looked at: the named int, in eax or on the stack.
 * sheet: 0 9 / 1 / 3 1 0 4 4
 */
int seen;
__attribute__((regparm(3))) void probe(int named, ...) { seen = named; }
