// Verdict: multi-entry
// Options: -O0
// Means: The cycle can be entered at another word than its header, by the edge that is given, so it is no
// loop with one beginning.
// Remedy: Look for a `goto` or a `case` label inside a loop. Copy what stands before the label in front of
// the loop in its place.
#define KEPT __attribute__((noinline, noclone))

static long list[100];

KEPT void fill(long *a, long n, long resume) {
    long i = 0;
    if (resume)
        goto inside;
    while (i < n) {
        a[i] = i;
    inside:
        i++;
    }
}

int main(void) {
    fill(list, 100, list[0]);
    return (int)list[99];
}
