// Verdict: shape
// Options: -O2
// Means: The loop, or an inner loop whose header this is, is left at two places, or goes round by two ways.
// Only loops that are left at one branch, which stands on every way round, are looked at further.
// Remedy: Look for `break`, `return` and `goto` out of the loop, and for conditions with `&&` in its head.
#define KEPT __attribute__((noinline, noclone))

static long list[100];

KEPT long invert(long *a, long n) {
    for (long i = 0; i < n; i++) {
        if (a[i] == 0)
            return i;
        a[i] = 1000 / a[i];
    }
    return n;
}

int main(void) {
    return (int)invert(list, 100);
}
