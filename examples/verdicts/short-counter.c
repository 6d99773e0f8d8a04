// Verdict: carried, by a counter of 16 bits
// Options: -O2
// Means: A counter of 8 or 16 bits is cut to its width in each turn by two words, so that its step is not
// a number that is fixed.
// Remedy: Count with `long`.
#define KEPT __attribute__((noinline, noclone))

static long list[100];

KEPT void fill(long *a, unsigned short from, unsigned short n) {
    unsigned short i = from;
    do {
        a[i] = 1;
        i++;
    } while (i != n);
}

int main(void) {
    fill(list, 3, 100);
    return (int)list[99];
}
