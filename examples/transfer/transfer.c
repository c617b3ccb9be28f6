/* Says two balances, transfers an amount from one to the other, and says them again. The balances stand in two pages. */

#include "../guest.h"

#define BALANCES 1024
#define FROM 3
#define TO 700
#define AMOUNT 100

/* How long it waits before the transfer, and after it, for the script to act. */
#define ROUNDS 10000

/* They stand in the file, so that each of their two pages has a frame from the start, and are read and written there. */
static volatile long balances[BALANCES] __attribute__((aligned(4096))) = { [FROM] = 1000, [TO] = 50 };

static void say(const char *when)
{
    put_text(when);
    put_text(": ");
    put_number(balances[FROM]);
    put_text(" and ");
    put_number(balances[TO]);
    end_line();
}

static void transfer(long amount)
{
    balances[FROM] -= amount;
    balances[TO] += amount;
}

/* The exit code is 0 where the sum is what it was. */
int main(void)
{
    touch_stack();
    say("before");
    wait_rounds(ROUNDS);
    touch_stack();
    transfer(AMOUNT);
    say("after");
    wait_rounds(ROUNDS);
    return balances[FROM] + balances[TO] != 1050;
}
