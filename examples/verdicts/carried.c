// Verdict: carried
// Options: -O2
// Means: A register takes a value from one turn to the next that is no fixed step: here x10 (a0) holds the
// sum. Each turn needs the one before it.
// Remedy: A sum, a product or a greatest element is carried by its nature. Where the value is only a
// leftover of the compiler, as a pointer that moves by different steps, other options may remove it.
#define KEPT __attribute__((noinline, noclone))

static long list[100];

KEPT long sum(const long *a, long n) {
    long all = 0;
    for (long i = 0; i < n; i++)
        all += a[i];
    return all;
}

int main(void) {
    return (int)sum(list, 100);
}
