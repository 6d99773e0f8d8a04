// Reads the input to its end, at most 65,536 bytes of it, and writes its bytes in order.
#include "calls.h"

enum { MOST = 65536 };

static unsigned char bytes[MOST];

static long read_all(void) {
    long size = 0;
    while (size < MOST) {
        long count = read_bytes(bytes + size, (size_t)(MOST - size));
        if (count <= 0)
            break;
        size += count;
    }
    return size;
}

static void sift(long root, long size) {
    for (;;) {
        long child = 2 * root + 1;
        if (child >= size)
            return;
        if (child + 1 < size && bytes[child] < bytes[child + 1])
            child++;
        if (bytes[root] >= bytes[child])
            return;
        unsigned char byte = bytes[root];
        bytes[root] = bytes[child];
        bytes[child] = byte;
        root = child;
    }
}

int main(void) {
    long size = read_all();
    for (long root = size / 2 - 1; root >= 0; root--)
        sift(root, size);
    for (long end = size - 1; end > 0; end--) {
        unsigned char byte = bytes[0];
        bytes[0] = bytes[end];
        bytes[end] = byte;
        sift(0, end);
    }
    write_bytes(bytes, (size_t)size);
    return size > 0 ? 0 : 1;
}
