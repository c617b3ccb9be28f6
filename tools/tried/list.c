/* A list of numbers in a table of nodes, from which numbers are unlinked. It is built with -g, for tools that read symbols and lines:

   riscv64-linux-gnu-gcc -march=rv64i -mabi=lp64 -O1 -g -ffile-prefix-map=$(pwd)=. -ffreestanding -nostdlib -static -fno-pie -no-pie \
       -Wl,-z,max-page-size=4096 -Wl,-z,separate-code -Wl,--no-relax -Wl,--build-id=none -I../../examples -o list.elf list.c */

#include "guest.h"

#define NODES 8

struct node {
    long value;
    struct node *next;
};

static struct node table[NODES];
static struct node *first;

/* Puts a number before the others. */
static __attribute__((noinline)) void push_value(struct node *node, long value)
{
    node->value = value;
    node->next = first;
    first = node;
}

/* Takes a number out of the list, and answers whether it was there. */
static __attribute__((noinline)) int unlink_value(long value)
{
    for (struct node **at = &first; *at; at = &(*at)->next) {
        if ((*at)->value == value) {
            *at = (*at)->next;
            return 1;
        }
    }
    return 0;
}

/* How many numbers there are below a node, counted by recursion. */
static __attribute__((noinline)) long length(struct node *node)
{
    return node ? 1 + length(node->next) : 0;
}

int main(void)
{
    for (long k = 0; k < NODES; k++)
        push_value(&table[k], 10 * k);
    unlink_value(30);
    unlink_value(35);
    unlink_value(70);
    put_text("left ");
    put_number(length(first));
    end_line();
    return 0;
}
