// Verdict: irregular
// Options: -O2
// Means: The access at this address does not move by a fixed step: here it goes where a number from another
// array says. Two turns may meet, and the numbers are known only when they are loaded.
// Remedy: None by options. Where the access is a load of data that is never written in the loop, a copy into
// an array in order, by a loop of its own, leaves a second loop that is regular.
#define KEPT __attribute__((noinline, noclone))

static long places[100], marks[100];

KEPT void mark(long *a, const long *index, long n) {
    for (long i = 0; i < n; i++)
        a[index[i]] = i;
}

int main(void) {
    mark(marks, places, 100);
    return (int)marks[0];
}
