// Multiplies two matrices of 64 rows and columns, and writes the sum of all entries of the product.
#include "calls.h"

enum { SIZE = 64 };

static long left[SIZE][SIZE], right[SIZE][SIZE], product[SIZE][SIZE];

int main(void) {
    for (long i = 0; i < SIZE; i++)
        for (long j = 0; j < SIZE; j++) {
            left[i][j] = i + j;
            right[i][j] = i - j;
        }
    for (long i = 0; i < SIZE; i++)
        for (long j = 0; j < SIZE; j++) {
            long sum = 0;
            for (long k = 0; k < SIZE; k++)
                sum += left[i][k] * right[k][j];
            product[i][j] = sum;
        }
    unsigned long all = 0;
    for (long i = 0; i < SIZE; i++)
        for (long j = 0; j < SIZE; j++)
            all += (unsigned long)product[i][j];
    write_number(all);
    return (int)(all % 100);
}
