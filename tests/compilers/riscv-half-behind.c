/* RISC-V LP64D: nine floats, seven ints, an integer of 16 bytes. Looked at: its upper half, 8 or 16 into the argument area.
 * sheet: 0 5 / 3 1 1 4 4 x9 / 3 1 0 4 4 x7 / 3 1 0 16 16
 * slot: 1
 */
long seen;
void probe(float a, float b, float c, float d, float e, float f, float g, float h, float ninth, int i, int j, int k, int l, int m, int n,
           int o, __int128 wide) {
    seen = wide >> 64;
}
