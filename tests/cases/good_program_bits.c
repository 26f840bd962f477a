typedef unsigned char byte;
typedef unsigned long word, *words;
struct flags { unsigned a : 1, b : 2; unsigned : 0; int c : 3; };
union both { struct flags f; byte bytes[sizeof(struct flags)]; };
static word table[256];
static void fill() {
    word i, c; int k;
    for (i = 0; i < 256; ++i) {
        for (c = i, k = 8; k; k--) c = c & 1 ? 0xEDB88320UL ^ (c >> 1) : c >> 1;
        table[i] = c;
    }
}
word crc(c, p, n) word c; const byte *p; unsigned n;
{
    if (!p) return 0L;
    c = ~c & 0xFFFFFFFFUL;
    while (n--) c = table[(int) (c ^ *p++) & 0xFF] ^ (c >> 8);
    return ~c;
}
int odd(word w) { return (w & 1) != 0; }
int parity(w) word w; { int r = 0; while (w) { r ^= odd(w); w >>= 1; } return r ? -1 : +1; }
