/* Draws numbers, takes each apart into its digits in some base, and folds the digits into one number: products, quotients and
   remainders throughout. It is built twice, for RV64I and for RV64IM, and says the same. */

#include "../guest.h"

#define DRAWS 500
#define MULTIPLIER 6364136223846793005ul
#define INCREMENT 1442695040888963407ul
#define FOLD 31

#ifndef __riscv_mul
/* gcc calls these for `*`, `/` and `%`, where there are no instructions for them. */
unsigned long __muldi3(unsigned long a, unsigned long b)
{
    unsigned long sum = 0;

    for (; b; b >>= 1) {
        if (b & 1)
            sum += a;
        a <<= 1;
    }
    return sum;
}

/* The quotient, and what it leaves: one subtraction for each of 64 bits at most. */
static unsigned long divide(unsigned long a, unsigned long b, unsigned long *left)
{
    unsigned long quotient = 0, rest = 0;

    for (int bit = 63; bit >= 0; bit--) {
        rest = rest << 1 | (a >> bit & 1);
        quotient <<= 1;
        if (rest >= b) {
            rest -= b;
            quotient |= 1;
        }
    }
    *left = rest;
    return quotient;
}

unsigned long __udivdi3(unsigned long a, unsigned long b)
{
    unsigned long left;

    return divide(a, b, &left);
}

unsigned long __umoddi3(unsigned long a, unsigned long b)
{
    unsigned long left;

    divide(a, b, &left);
    return left;
}
#endif

/* What a number's digits in a base come to, folded from the last one on. */
static unsigned long fold_digits(unsigned long number, unsigned long base)
{
    unsigned long folded = 0;

    for (; number; number /= base)
        folded = folded * FOLD + number % base;
    return folded;
}

int main(void)
{
    unsigned long drawn = 1, folded = 0;

    for (unsigned long i = 0; i < DRAWS; i++) {
        drawn = drawn * MULTIPLIER + INCREMENT;
        folded = folded * FOLD + fold_digits(drawn >> 32, 7 + (i & 7));
    }
    put_text("folded to ");
    put_number(folded >> 32);
    end_line();
    return 0;
}
