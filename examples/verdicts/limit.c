// Verdict: limit
// Options: -O2
// Means: The loop is larger than what is looked at: 256 words, 4 loops in 3 levels, 16 cells, 32 accesses,
// 32 words that compute with 32 bits. The address is the header, or the first word that is one too many.
// Here four loops stand one in another.
// Remedy: An inner loop of a nest that is too deep has a line of its own, and can be chosen. Less unrolling
// (`-O2` in place of `-O3`) keeps loops short.
#define KEPT __attribute__((noinline, noclone))

static long cube[6][7][8][9];

KEPT void clear(long (*a)[7][8][9], long n) {
    for (long i = 0; i < n; i++)
        for (long j = 0; j < n; j++)
            for (long k = 0; k < n; k++)
                for (long l = 0; l < n; l++)
                    a[i][j][k][l] += 1;
}

int main(void) {
    clear(cube, 6);
    return (int)cube[5][5][5][5];
}
