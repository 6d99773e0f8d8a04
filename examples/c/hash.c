// Hashes 4,096 bytes ROUNDS times by FNV-1a (32 bits), each time from the hash before, and writes the
// last hash.
#include "calls.h"

#ifndef ROUNDS
#define ROUNDS 1
#endif

enum { SIZE = 4096 };

static unsigned char bytes[SIZE];

int main(void) {
    for (long i = 0; i < SIZE; i++)
        bytes[i] = (unsigned char)(i * 7 + i / 256);
    unsigned hash = 2166136261u;
    for (long round = 0; round < ROUNDS; round++)
        for (long i = 0; i < SIZE; i++)
            hash = (hash ^ bytes[i]) * 16777619u;
    write_number(hash);
    return 0;
}
