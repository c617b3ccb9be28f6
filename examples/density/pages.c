/* Writes lines of pages: first one line of each page of a table, then a second one of each, and so on up to the last of the 64. It waits
   at the start, for the script to fork it, once more when it has written its stack, and behind each round. */

#include "../guest.h"

#define PAGES 16
#define PAGE_LINES 64
#define LINE 8

/* How long it waits: 60,000 instructions. */
#define ROUNDS 30000

/* A line of memory. */
struct line {
    long numbers[LINE];
};

/* It stands in the file, so that each of its pages has a frame from the start. */
static struct line table[PAGES][PAGE_LINES] __attribute__((aligned(4096))) = { { { { 1 } } } };

/* Adds one to the first number of the line of this place, in each page. */
static void write_lines(long at)
{
    for (long page = 0; page < PAGES; page++)
        table[page][at].numbers[0]++;
}

static long sum(void)
{
    long all = 0;

    for (long page = 0; page < PAGES; page++)
        for (long at = 0; at < PAGE_LINES; at++)
            all += table[page][at].numbers[0];
    return all;
}

/* The exit code is 0 where each line was written once. */
int main(void)
{
    touch_stack();
    wait_rounds(ROUNDS);
    touch_stack();
    wait_rounds(ROUNDS);
    for (long at = 0; at < PAGE_LINES; at++) {
        write_lines(at);
        wait_rounds(ROUNDS);
    }
    put_text("written: ");
    put_number(sum() - 1);
    end_line();
    return sum() - 1 != PAGES * PAGE_LINES;
}
