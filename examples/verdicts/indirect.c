// Verdict: indirect
// Options: -O2
// Means: The loop jumps or calls through a register, at this address, so that what runs next is not known.
// Remedy: Call the function by its name where there is one only. A `switch` can become a jump through a
// table, and what stands behind the table is then not listed at all: `-fno-jump-tables`.
#define KEPT __attribute__((noinline, noclone))

static long list[100];

KEPT long next(long n) {
    return n + 1;
}

KEPT void apply(long (*change)(long), long *a, long n) {
    for (long i = 0; i < n; i++)
        a[i] = change(a[i]);
}

int main(void) {
    apply(next, list, 100);
    return (int)list[99];
}
