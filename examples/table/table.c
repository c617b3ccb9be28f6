/* Fills a table, and then changes three lines of it, one in each of three pages. Copies that were forked once the table was
   filled have it, and each changes lines of its own. */

#include "../guest.h"

#define REQUEST_PROCESS 172
#define LINE 8
#define PAGE_LINES 64
#define PAGES 8
#define CHANGES 3

/* How long it waits once the table is filled, for the script to fork it. */
#define FILLED_ROUNDS 100000

/* How much longer than the one before each process waits before a change, so that they come in the order of their numbers. */
#define CHANGE_ROUNDS 512

/* It stands in the file, so that each of its pages has a frame from the start. */
static long table[PAGES * PAGE_LINES * LINE] __attribute__((aligned(4096))) = { 1 };

static void fill(void)
{
    for (long at = 0; at < PAGES * PAGE_LINES * LINE; at++)
        table[at] = at;
}

/* Makes each number of a line the given one. */
static void change(long page, long at, long number)
{
    long *numbers = table + (page * PAGE_LINES + at) * LINE;

    for (int i = 0; i < LINE; i++)
        numbers[i] = number;
}

static long sum(void)
{
    long all = 0;

    for (long at = 0; at < PAGES * PAGE_LINES * LINE; at++)
        all += table[at];
    return all;
}

/* The exit code is the process's number. */
int main(void)
{
    long number;

    touch_stack();
    fill();
    put_text("filled: ");
    put_number(sum());
    end_line();
    wait_rounds(FILLED_ROUNDS);

    number = request(REQUEST_PROCESS, 0, 0, 0);
    for (long page = 1; page <= CHANGES; page++) {
        wait_rounds(CHANGE_ROUNDS * number);
        change(page, number, -number);
        put_text("process ");
        put_number(number);
        put_text(", page ");
        put_number(page);
        put_text(": ");
        put_number(sum());
        end_line();
    }
    return number;
}
