/* Books orders on accounts. An order moves amounts from account to account, one after the other, and is booked whole or not at all: it may
   find out on its way that an account hasn't as much. Then all that it moved has to be taken back.

   It is built twice. In one the process begins a speculation before each order, and discards it. In the other it does by hand what it needs:
   it copies all accounts before each order, and keeps the place to which it has to return. */

#include "../guest.h"

#define PAGES 8
#define ACCOUNTS (PAGES * 512)
#define BALANCE 100
#define ORDERS 24
#define MOVES 6
#define SEED 88172645463325252ul

/* How long it waits for the script to act: before the orders, in the first of them, and behind them. */
#define ROUNDS 200000

static volatile long accounts[ACCOUNTS] __attribute__((aligned(4096)));

/* The order that is booked: how much goes from where to where. */
static struct {
    long from[MOVES], to[MOVES], amount[MOVES];
} order;

#ifdef BY_HAND

static volatile long copies[ACCOUNTS] __attribute__((aligned(4096)));

static void copy_accounts(volatile long *to, volatile long *from)
{
    for (long k = 0; k < ACCOUNTS; k++)
        to[k] = from[k];
}

/* A place of the program, by the registers that have to be there again: ra, sp, and s0 to s11. */
static long place[14];

/* Keeps the place from which it is called, and answers 0. `go_back` returns to it, and then it answers 1. */
long keep_place(long *registers);
void go_back(long *registers);

__asm__(
    ".section .text.places,\"ax\",@progbits\n"
    ".globl keep_place, go_back\n"
    "keep_place:\n"
    "sd ra, 0(a0)\nsd sp, 8(a0)\nsd s0, 16(a0)\nsd s1, 24(a0)\nsd s2, 32(a0)\nsd s3, 40(a0)\nsd s4, 48(a0)\n"
    "sd s5, 56(a0)\nsd s6, 64(a0)\nsd s7, 72(a0)\nsd s8, 80(a0)\nsd s9, 88(a0)\nsd s10, 96(a0)\nsd s11, 104(a0)\n"
    "li a0, 0\nret\n"
    "go_back:\n"
    "ld ra, 0(a0)\nld sp, 8(a0)\nld s0, 16(a0)\nld s1, 24(a0)\nld s2, 32(a0)\nld s3, 40(a0)\nld s4, 48(a0)\n"
    "ld s5, 56(a0)\nld s6, 64(a0)\nld s7, 72(a0)\nld s8, 80(a0)\nld s9, 88(a0)\nld s10, 96(a0)\nld s11, 104(a0)\n"
    "li a0, 1\nret\n"
    ".text\n");

/* The place is that of the function in which this stands, so it can't be a function. */
#define begin() (copy_accounts(copies, accounts), keep_place(place))

static void keep(void)
{
}

static void take_back(void)
{
    copy_accounts(accounts, copies);
    go_back(place);
}

#else

#include "../speculate.h"

static long begin(void)
{
    return speculate();
}

static void keep(void)
{
    commit();
}

static void take_back(void)
{
    discard();
}

#endif

/* The next number of a row that looks drawn. */
static unsigned long draw(unsigned long *state)
{
    *state ^= *state << 13;
    *state ^= *state >> 7;
    *state ^= *state << 17;
    return *state;
}

/* Most amounts are less than what an account begins with. */
static void draw_order(unsigned long *state)
{
    for (long k = 0; k < MOVES; k++) {
        unsigned long drawn = draw(state);

        order.from[k] = drawn >> 16 & (ACCOUNTS - 1);
        order.to[k] = drawn >> 32 & (ACCOUNTS - 1);
        order.amount[k] = (drawn & 63) + (drawn >> 6 & 63);
    }
}

static void take(long account, long amount)
{
    if (accounts[account] < amount)
        take_back();
    accounts[account] -= amount;
}

static void book(void)
{
    for (long k = 0; k < MOVES; k++) {
        take(order.from[k], order.amount[k]);
        accounts[order.to[k]] += order.amount[k];
    }
}

static long sum(void)
{
    long all = 0;

    for (long k = 0; k < ACCOUNTS; k++)
        all += accounts[k];
    return all;
}

static void say(const char *what, long number)
{
    put_text(what);
    put_number(number);
    end_line();
}

/* Books the order, and answers 1; or 0 where it was taken back. In the first one it waits for the script to look. */
static long try_order(long number)
{
    if (begin() != 0)
        return 0;
    touch_stack();
    book();
    if (number == 0)
        wait_rounds(ROUNDS);
    keep();
    return 1;
}

/* The exit code is 0 where no amount came or went. */
int main(void)
{
    unsigned long state = SEED;
    long booked = 0;

    for (long k = 0; k < ACCOUNTS; k++)
        accounts[k] = BALANCE;
    touch_stack();
    say("all accounts: ", sum());
    wait_rounds(ROUNDS);
    for (long number = 0; number < ORDERS; number++) {
        draw_order(&state);
        booked += try_order(number);
    }
    touch_stack();
    say("orders booked: ", booked);
    say("orders taken back: ", ORDERS - booked);
    say("all accounts: ", sum());
    wait_rounds(ROUNDS);
    return sum() != ACCOUNTS * BALANCE;
}
