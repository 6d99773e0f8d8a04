// Verdict: carried, by a step in a register
// Options: -O2
// Means: A step of 2,048 bytes and more does not fit in an instruction, so the compiler keeps it in a
// register that is set before the loop. What it holds is not known in the loop, and the pointer that
// moves by it is carried.
// Remedy: Go over neighbouring elements in the innermost loop. At `-O0` the step is worked out in the loop
// itself, and the loop is parallel.
#define KEPT __attribute__((noinline, noclone))

static long table[100][512];

KEPT void column(long (*a)[512], long n) {
    for (long i = 0; i < n; i++)
        a[i][7] = i;
}

int main(void) {
    column(table, 100);
    return (int)table[99][7];
}
