// Verdict: unsupported
// Options: -O2
// Means: The word at this address is no instruction of RV64IM: floating point, atomics, compressed code, or,
// as here, a control register. Such a word faults when it is executed.
// Remedy: `-march=rv64im -mabi=lp64`, without inline assembly that is for another machine.
#define KEPT __attribute__((noinline, noclone))

static long list[100];

KEPT void times(long *a, long n) {
    for (long i = 0; i < n; i++) {
        register long now __asm__("a7");
        __asm__ volatile(".word 0xC00028F3" : "=r"(now)); // rdcycle a7
        a[i] = now;
    }
}

int main(void) {
    if (list[0] != 0)
        times(list, 100);
    return 0;
}
