/* fastcall, a function with dots: an int. Looked at: the named int, in ecx or on the stack.
 * sheet: 0 22 / 1 / 3 1 0 4 4
 */
int seen;
__attribute__((fastcall)) void probe(int named, ...) { seen = named; }
