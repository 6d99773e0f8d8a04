// Verdict: mixed-cell
// Options: -O0
// Means: The bytes of one variable in memory are accessed in different widths; the address is that of the
// later of two such accesses. A cell has one width.
// Remedy: `-O1` and more keep variables in registers. Otherwise use one type: no union, no cast of a
// pointer to the variable.
#define KEPT __attribute__((noinline, noclone))

static long list[100];

KEPT void halves(long *a, long n) {
    union {
        long whole;
        int half[2];
    } parts;
    for (long i = 0; i < n; i++) {
        parts.whole = a[i];
        a[i] = parts.half[1];
    }
}

int main(void) {
    halves(list, 100);
    return (int)list[99];
}
