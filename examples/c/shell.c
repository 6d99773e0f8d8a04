// Sorts 8,192 numbers by Shell's method ROUNDS times, each time other ones, and writes the sum of the
// numbers that are in the middle.
#include "calls.h"

#ifndef ROUNDS
#define ROUNDS 1
#endif

enum { SIZE = 8192 };

static unsigned numbers[SIZE];

static void sort(void) {
    for (long gap = SIZE / 2; gap > 0; gap /= 2)
        for (long i = gap; i < SIZE; i++) {
            unsigned number = numbers[i];
            long place = i;
            for (; place >= gap && numbers[place - gap] > number; place -= gap)
                numbers[place] = numbers[place - gap];
            numbers[place] = number;
        }
}

int main(void) {
    unsigned seed = 1;
    unsigned long sum = 0;
    for (long round = 0; round < ROUNDS; round++) {
        for (long i = 0; i < SIZE; i++) {
            seed = seed * 1664525u + 1013904223u;
            numbers[i] = seed >> 8;
        }
        sort();
        sum += numbers[SIZE / 2];
    }
    write_number(sum);
    return 0;
}
