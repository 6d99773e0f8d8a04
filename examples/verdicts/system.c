// Verdict: system
// Options: -O2
// Means: The loop makes a system call itself, at this address: reading, writing, moving the end of the heap.
// These have an order that must stay.
// Remedy: Gather the output in an array, and write it behind the loop.
#include "../c/calls.h"

#define KEPT __attribute__((noinline, noclone))

KEPT void dots(long n) {
    for (long i = 0; i < n; i++)
        write_bytes(".", 1);
}

int main(void) {
    dots(20);
    return 0;
}
