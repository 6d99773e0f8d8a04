// Verdict: parallel
// Options: -O2
// Means: The loop is parallel, and so is a loop round it, which is chosen in its place: the turns of the
// outer loop are divided, and each hart runs the inner loop whole.
// Remedy: None is needed.
#define KEPT __attribute__((noinline, noclone))

static long image[40][50];

KEPT void brighten(long (*rows)[50], long height, long width) {
    for (long y = 0; y < height; y++)
        for (long x = 0; x < width; x++)
            rows[y][x] += 16;
}

int main(void) {
    brighten(image, 40, 50);
    return (int)image[39][49];
}
