/* Looks for the numbers that take more steps to 1 than each number before them, where a step halves an even number and makes 3 n + 1 of
   an odd number n. First it fills a table with the steps of the numbers below 2048, and waits. Then it goes through the numbers and says
   those that take 100 steps and more, and more than each before; it waits once on its way, and ends with the numbers below 7000. */

#include "../guest.h"

#define KNOWN 2048
#define HALF 1000
#define END 7000
#define AT_LEAST 100

/* How long it waits: 2,000,000 instructions. */
#define ROUNDS 1000000

/* The steps of the numbers below KNOWN, on a page. */
static short steps[KNOWN] __attribute__((aligned(4096)));

static long number = 1;
static long most = AT_LEAST - 1;

/* How many steps a number takes, where those of all numbers below `known` are in the table. */
static long steps_of(long n, long known)
{
    long count = 0;

    while (n >= known) {
        n = n & 1 ? n + n + n + 1 : n >> 1;
        count++;
    }
    return count + steps[n];
}

static void fill(void)
{
    for (long n = 2; n < KNOWN; n++)
        steps[n] = steps_of(n, n);
}

/* Goes on to the numbers below `end`. */
static void search(long end)
{
    for (; number < end; number++) {
        long count = steps_of(number, KNOWN);

        if (count > most) {
            most = count;
            put_number(number);
            put_text(" takes ");
            put_number(count);
            end_line();
        }
    }
}

/* The exit code is 0 where the last number that was said takes as many steps counted one by one, without the table. */
int main(void)
{
    touch_stack();
    fill();
    wait_rounds(ROUNDS);
    search(HALF);
    wait_rounds(ROUNDS);
    search(END);
    return steps_of(6171, 2) != most;
}
