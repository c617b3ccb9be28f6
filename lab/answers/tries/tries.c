/* A guest to begin with. So many times it says that it is ready, waits for the script to act, does its work, and says what its numbers
   sum up to. A wait takes 200,000 instructions: a script that gives the process 200,000 turns at a time finds it in a wait each time. */

#include "guest.h"
#include "speculate.h"

#define REQUEST_PROCESS 172
#define TIMES 4
#define ROUNDS 100000
#define PAGES 8
#define LINES 64
#define LINE 8

/* The numbers: pages of 64 lines, of eight numbers each. They stand in the file, so that each page has a frame from the start; the first
   page begins at 0x12000. */
static volatile long numbers[PAGES][LINES][LINE] __attribute__((aligned(4096))) = { { { 1 } } };

/* Tries to take from the first number of the first page what it gives to the first number of the last page, and waits for the script to
   act. What it tried the first and the third time it keeps, and else takes it back. Where it doesn't try, or has taken it back, it adds the
   time to the first number of another line. */
static void work(long time)
{
    if (speculate() == 0) {
        touch_stack();
        numbers[0][0][0] -= 1L << time;
        numbers[PAGES - 1][0][0] += 1L << time;
        wait_rounds(ROUNDS);
        if (time & 1)
            commit();
        else
            discard();
    } else {
        numbers[0][1][0] += time;
    }
}

/* What the first numbers of all lines sum up to. */
static long sum(void)
{
    long all = 0;

    for (long page = 0; page < PAGES; page++)
        for (long line = 0; line < LINES; line++)
            all += numbers[page][line][0];
    return all;
}

int main(void)
{
    for (long time = 1; time <= TIMES; time++) {
        touch_stack();
        put_text("ready for time ");
        put_number(time);
        end_line();
        wait_rounds(ROUNDS);
        touch_stack();
        work(time);
        put_text("sum ");
        put_number(sum());
        end_line();
    }
    return 0;
}
