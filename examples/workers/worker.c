/* Sums a share of a table: the one that the process's number names. Each worker has a table and a sum of its own. */

#include "../guest.h"

#define REQUEST_PROCESS 172
#define SHARE 8

/* How much longer than the one before each worker waits before it says its sum, so that they come in the order of their numbers. */
#define ROUNDS 1024

static const int table[] = {
    17, 4, 250, -31, 8, 1000, 6, -2,
    90, 90, -45, 12, 7, 301, 44, 5,
    -600, 28, 3, 3, 81, 19, 2048, -7
};

static const unsigned long shares = sizeof table / sizeof table[0] / SHARE;

/* The exit code is 0 where the table has a share of that number, else 1. */
int main(void)
{
    unsigned long share = request(REQUEST_PROCESS, 0, 0, 0);
    long sum = 0;

    if (share > shares) {
        put_text("no share for process ");
        put_number(share);
        end_line();
        return 1;
    }
    for (unsigned long at = (share - 1) * SHARE; at < share * SHARE; at++)
        sum += table[at];
    wait_rounds(ROUNDS * share);
    put_text("share ");
    put_number(share);
    put_text(" of ");
    put_number(shares);
    put_text(": ");
    put_number(sum);
    end_line();
    return 0;
}
