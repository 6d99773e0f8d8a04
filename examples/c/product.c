// Multiplies two matrices of 64 rows and columns ROUNDS times, each time with other entries, and writes
// the sum of all entries of the products.
#include "calls.h"

#ifndef ROUNDS
#define ROUNDS 1
#endif

enum { SIZE = 64 };

static long left[SIZE][SIZE], right[SIZE][SIZE];

static unsigned long multiply(void) {
    unsigned long all = 0;
    for (long i = 0; i < SIZE; i++)
        for (long j = 0; j < SIZE; j++) {
            long sum = 0;
            for (long k = 0; k < SIZE; k++)
                sum += left[i][k] * right[k][j];
            all += (unsigned long)sum;
        }
    return all;
}

int main(void) {
    unsigned long all = 0;
    for (long round = 0; round < ROUNDS; round++) {
        for (long i = 0; i < SIZE; i++)
            for (long j = 0; j < SIZE; j++) {
                left[i][j] = i + j + round;
                right[i][j] = i - j;
            }
        all += multiply();
    }
    write_number(all);
    return 0;
}
