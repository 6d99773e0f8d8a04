// Verdict: dependence
// Options: -O1
// Means: No test can tell these two accesses, a store among them, apart, whatever the loop starts with: here
// the load at the first address reads in turn i what the store at the second wrote in turn i - 3. The
// distance is the least number of turns between two that meet, with one number more for each inner loop
// round both. It is `none` where no two meet within 15 turns: they meet further apart, or the tests, which
// compare whole steps and widths, are too coarse for them.
// Remedy: The algorithm is serial in this loop. An outer loop may be parallel; otherwise the source has to
// compute each element from elements that the loop does not write. At `-O2` gcc keeps the last three
// elements in registers, and the verdict is `carried`.
#define KEPT __attribute__((noinline, noclone))

static long list[100];

KEPT void fill(long *a, long n) {
    for (long i = 3; i < n; i++)
        a[i] = a[i - 3] + 1;
}

int main(void) {
    fill(list, 100);
    return (int)list[99];
}
