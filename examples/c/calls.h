// The calls that a guest has: read, write and brk.
#ifndef CALLS_H
#define CALLS_H

#include <stddef.h>

static long call(long number, long first, long second, long third) {
    register long a0 __asm__("a0") = first;
    register long a1 __asm__("a1") = second;
    register long a2 __asm__("a2") = third;
    register long a7 __asm__("a7") = number;
    __asm__ volatile("ecall" : "+r"(a0) : "r"(a1), "r"(a2), "r"(a7) : "memory");
    return a0;
}

// Reads at most so many bytes of the input, and says how many there were.
static inline long read_bytes(void *buffer, size_t most) {
    return call(63, 0, (long)buffer, (long)most);
}

// Writes so many bytes to the output.
static inline long write_bytes(const void *buffer, size_t size) {
    return call(64, 1, (long)buffer, (long)size);
}

// Moves the end of the heap, if it can be moved there, and says where it is.
static inline char *move_break(char *end) {
    return (char *)call(214, (long)end, 0, 0);
}

// Writes a number in decimal and a line feed.
static inline void write_number(unsigned long number) {
    char text[21];
    int place = 21;
    text[--place] = '\n';
    do {
        text[--place] = (char)('0' + number % 10);
        number /= 10;
    } while (number != 0);
    write_bytes(text + place, (size_t)(21 - place));
}

#endif
