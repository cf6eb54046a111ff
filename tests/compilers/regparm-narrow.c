/* regparm(3): a signed char. Looked at: whether the callee extends what it finds in al or takes all of eax as it is.
 * sheet: 0 9 / 3 1 0 1 1
 * narrow: 9
 */
int seen;
__attribute__((regparm(3))) void probe(signed char narrow) { seen = narrow; }
