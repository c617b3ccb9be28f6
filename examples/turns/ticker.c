/* Says three times what its number is, and waits between. Processes of this file that take turns say it in turn. */

#include "../guest.h"

#define REQUEST_PROCESS 172
#define TIMES 3

/* How long it waits behind each line. */
#define ROUNDS 10000

/* The exit code is the process's number. */
int main(void)
{
    long number = request(REQUEST_PROCESS, 0, 0, 0);

    for (int time = 1; time <= TIMES; time++) {
        put_text("process ");
        put_number(number);
        put_text(", time ");
        put_number(time);
        end_line();
        wait_rounds(ROUNDS);
    }
    return number;
}
