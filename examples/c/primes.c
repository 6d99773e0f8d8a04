// Counts the primes below 100,000 with a sieve.
#include "calls.h"

enum { LIMIT = 100000 };

static unsigned char composite[LIMIT];

int main(void) {
    unsigned long count = 0;
    for (long n = 2; n < LIMIT; n++) {
        if (composite[n])
            continue;
        count++;
        for (long multiple = n * n; multiple < LIMIT; multiple += n)
            composite[multiple] = 1;
    }
    write_number(count);
    return 0;
}
