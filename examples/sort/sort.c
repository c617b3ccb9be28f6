/* Sorts an array of its data segment in place: a merge sort, with room for merging in bss. */

#include "../guest.h"

#define COUNT 24

static int numbers[COUNT] = {
    512, -7, 88, 3, 1024, -300, 0, 41, 77, -7, 2048, 15,
    -1, 650, 9, 100000, -45000, 33, 8, 256, -128, 70, 5, 19
};

static int merged[COUNT];

/* Merges numbers[from..middle] and numbers[middle..to], each of which is sorted. */
static void merge(int from, int middle, int to)
{
    int left = from, right = middle;

    for (int at = from; at < to; at++) {
        if (left < middle && (right == to || numbers[left] <= numbers[right]))
            merged[at] = numbers[left++];
        else
            merged[at] = numbers[right++];
    }
    for (int at = from; at < to; at++)
        numbers[at] = merged[at];
}

static void sort(int from, int to)
{
    int middle = from + (to - from) / 2;

    if (to - from < 2)
        return;
    sort(from, middle);
    sort(middle, to);
    merge(from, middle, to);
}

static void print(const char *title)
{
    put_text(title);
    for (int at = 0; at < COUNT; at++) {
        put_char(' ');
        put_number(numbers[at]);
    }
    end_line();
}

/* How many neighbours stand in the wrong order. */
static int disorder(void)
{
    int count = 0;

    for (int at = 1; at < COUNT; at++)
        if (numbers[at - 1] > numbers[at])
            count++;
    return count;
}

/* The exit code is the number of neighbours that still stand in the wrong order: 0. */
int main(void)
{
    print("given:");
    sort(0, COUNT);
    print("sorted:");
    return disorder();
}
