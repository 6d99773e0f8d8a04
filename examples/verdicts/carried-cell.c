// Verdict: carried cell
// Options: -O0
// Means: The same of a variable that stands in memory: a cell is 4 or 8 bytes at a fixed offset from a
// register that the loop does not change (`x8 -24 8`: register, offset, bytes), or at a fixed address
// (`abs 131072 8`). Without optimisation every variable is such a cell, so the sum of the loop above
// shows as one.
// Remedy: As above.
#define KEPT __attribute__((noinline, noclone))

static long list[100];

KEPT long sum(const long *a, long n) {
    long all = 0;
    for (long i = 0; i < n; i++)
        all += a[i];
    return all;
}

int main(void) {
    return (int)sum(list, 100);
}
