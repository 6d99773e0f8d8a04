// Verdict: parallel chosen
// Options: -O2
// Means: The turns are independent where the check that runs at each arrival says so: nothing that one
// turn writes is read or written by another. The loop is divided; it is chosen because no loop round it
// is parallel too.
// Remedy: None is needed. The check still has to hold when the program runs: at least 16 turns, each
// array in one readable or writable area, and arrays that do not overlap.
#define KEPT __attribute__((noinline, noclone))

static long from[100], to[100];

KEPT void scale(long *a, const long *b, long n) {
    for (long i = 0; i < n; i++)
        a[i] = 3 * b[i] + 1;
}

int main(void) {
    scale(to, from, 100);
    return (int)to[99];
}
