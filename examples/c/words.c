// Divisions, shifts and products at the ends of their ranges, in 32 and 64 bits.
#include "calls.h"
#include <stdint.h>

static volatile int64_t longs[] = {0, 1, -1, 7, -7, INT64_MAX, INT64_MIN};
static volatile int32_t words[] = {0, 1, -1, 7, -7, INT32_MAX, INT32_MIN};

int main(void) {
    for (int i = 0; i < 7; i++)
        for (int j = 0; j < 7; j++) {
            int64_t a = longs[i], b = longs[j];
            int32_t c = words[i], d = words[j];
            uint64_t mixed = (uint64_t)((__int128)a * b >> 64);
            mixed ^= (uint64_t)((unsigned __int128)(uint64_t)a * (uint64_t)b >> 64);
            if (b != 0 && !(a == INT64_MIN && b == -1))
                mixed += (uint64_t)(a / b) ^ (uint64_t)(a % b) << 1;
            if (b != 0)
                mixed += (uint64_t)a / (uint64_t)b + (uint64_t)a % (uint64_t)b;
            if (d != 0 && !(c == INT32_MIN && d == -1))
                mixed += (uint64_t)(c / d) ^ (uint64_t)(c % d);
            mixed += (uint64_t)(a >> (j * 9)) + ((uint64_t)a << i) + (uint64_t)(c >> (j * 4));
            write_number(mixed);
        }
    return 0;
}
