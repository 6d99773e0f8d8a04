// Puts a list of 10,000 numbers into the heap, adds them up, and gives the heap back.
#include "calls.h"

struct node {
    long value;
    struct node *next;
};

int main(void) {
    char *start = move_break(0);
    long size = 10000 * (long)sizeof(struct node);
    if (move_break(start + size) != start + size)
        return 1;
    struct node *nodes = (struct node *)start, *first = 0;
    for (long i = 0; i < 10000; i++) {
        nodes[i].value = i * i;
        nodes[i].next = first;
        first = &nodes[i];
    }
    unsigned long sum = 0;
    for (struct node *node = first; node; node = node->next)
        sum += (unsigned long)node->value;
    write_number(sum);
    return move_break(start) == start ? 7 : 2;
}
