// Verdict: no-trip
// Options: -O2
// Means: How often the loop turns is not known when it starts: the branch that leaves it, at this address,
// compares something else than a counter of fixed step with a number that stays; here a byte that has
// just been loaded.
// Remedy: Count first (`strlen`), then loop over the count. A limit that is loaded anew in each turn, since
// a store might change it, becomes a fixed one by a local copy or `restrict`.
#define KEPT __attribute__((noinline, noclone))

static char from[100], to[100];

KEPT void copy(char *a, const char *b) {
    char c;
    do {
        c = *b++;
        *a++ = c;
    } while (c != 0);
}

int main(void) {
    copy(to, from);
    return to[99];
}
