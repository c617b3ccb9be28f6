/* What the examples share: the system calls of the machine, printing by lines, and the way in.
   A program includes this file once and has a function `main`. */

#define REQUEST_WRITE 64
#define REQUEST_EXIT 93

/* Asks the machine: a7 says what for, a0 to a2 are the words of the request, and the answer comes back in a0. */
static long request(long number, long first, long second, long third)
{
    register long a0 __asm__("a0") = first;
    register long a1 __asm__("a1") = second;
    register long a2 __asm__("a2") = third;
    register long a7 __asm__("a7") = number;
    __asm__ volatile("ecall" : "+r"(a0) : "r"(a1), "r"(a2), "r"(a7) : "memory");
    return a0;
}

/* The line that is being made. It is sent whole, so that the report has one `out` line for each. */
static char line[256];
static unsigned long line_length;

static void put_char(char c)
{
    if (line_length < sizeof line)
        line[line_length++] = c;
}

static void put_text(const char *text)
{
    while (*text)
        put_char(*text++);
}

static const unsigned long powers_of_ten[] = {
    1, 10, 100, 1000, 10000, 100000, 1000000, 10000000, 100000000, 1000000000
};

/* Appends a number between -9,999,999,999 and 9,999,999,999 in decimal. RV64I has no division, so each digit is
   counted by subtracting. */
static void put_number(long number)
{
    unsigned long rest = number;
    int place = 9;

    if (number < 0) {
        put_char('-');
        rest = -rest;
    }
    while (place > 0 && rest < powers_of_ten[place])
        place--;
    for (; place >= 0; place--) {
        char digit = '0';
        while (rest >= powers_of_ten[place]) {
            rest -= powers_of_ten[place];
            digit++;
        }
        put_char(digit);
    }
}

static void end_line(void)
{
    put_char('\n');
    request(REQUEST_WRITE, 1, (long)line, line_length);
    line_length = 0;
}

/* Waits for so many rounds of two instructions each. Where a script is to act while a program waits, it steps into such a wait: its
   instructions are written out, so that every compiler's build waits equally long, whatever it took to come there. */
static inline void wait_rounds(long rounds)
{
    __asm__ volatile("1: addi %0, %0, -1\n\tbne %0, zero, 1b" : "+r"(rounds));
}

#define STACK_LINES 7

/* Stores into the top lines of the stack what they have: as many as the examples need, whichever compiler built them, so that the stack's
   overlay has these lines in every build. The stack ends with the page that sp points into. */
static inline void touch_stack(void)
{
    unsigned long sp;

    __asm__ volatile("addi %0, sp, 0" : "=r"(sp));
    for (unsigned long at = 1; at <= STACK_LINES; at++) {
        volatile char *byte = (volatile char *)((sp | 4095) + 1 - 64 * at);

        *byte = *byte;
    }
}

int main(void);

/* The machine begins here, with sp set and every other register zero. */
void _start(void)
{
    request(REQUEST_EXIT, main(), 0, 0);
    for (;;)
        ;
}
