// Verdict: call
// Options: -O2
// Means: The loop calls a function, at this address. What a function does to registers and memory is not
// followed.
// Remedy: `-O2` puts small functions in place of their calls where it may (here it may not); `inline`, one
// file in place of several, or `-flto` let it see more. Divisions are instructions on RV64IM and no calls.
#define KEPT __attribute__((noinline, noclone))

static long list[100];

KEPT long half(long n) {
    return n / 2;
}

KEPT void halve(long *a, long n) {
    for (long i = 0; i < n; i++)
        a[i] = half(a[i]);
}

int main(void) {
    halve(list, 100);
    return (int)list[99];
}
