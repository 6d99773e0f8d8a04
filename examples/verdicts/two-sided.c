// Verdict: shape, by two ways round
// Options: -O2
// Means: The two sides of an `if` each end in a jump back to the header, so that the loop has two back
// edges. The source has one way round; the compiler has made two of it.
// Remedy: `-O1` or `-fno-reorder-blocks` keeps one way round, and the loop is parallel.
#define KEPT __attribute__((noinline, noclone))

static long list[100], marks[100];

KEPT void settle(long *a, long *b, long n) {
    for (long i = 0; i < n; i++) {
        if (a[i] < 0) {
            a[i] = b[i] / 3;
            b[i] = 7;
        } else {
            b[i] = a[i] % 5;
            a[i] = i;
        }
    }
}

int main(void) {
    settle(list, marks, 100);
    return (int)list[99];
}
