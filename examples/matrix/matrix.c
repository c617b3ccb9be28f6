/* Multiplies two matrices, one of the read-only data and one of the data segment, into a third one in bss. */

#include "../guest.h"

#define ROWS 4
#define INNER 3
#define COLUMNS 5

static const long left[ROWS][INNER] = {
    { 1, 2, 3 },
    { -4, 5, -6 },
    { 70, 0, 8 },
    { 1000, -1, 12345 }
};

static long right[INNER][COLUMNS] = {
    { 3, -1, 0, 20, 6 },
    { 1, 4, -2, 5, 100 },
    { 2, 7, 1, 0, -9 }
};

static long product[ROWS][COLUMNS];

/* gcc calls this for `*`, since RV64I has no instruction that multiplies: one addition for each bit of b that is 1. */
unsigned long __muldi3(unsigned long a, unsigned long b)
{
    unsigned long sum = 0;

    for (; b; b >>= 1) {
        if (b & 1)
            sum += a;
        a <<= 1;
    }
    return sum;
}

/* Adds left times right to the product. */
static void add_product(void)
{
    for (int row = 0; row < ROWS; row++)
        for (int column = 0; column < COLUMNS; column++)
            for (int k = 0; k < INNER; k++)
                product[row][column] += left[row][k] * right[k][column];
}

static void negate_right(void)
{
    for (int row = 0; row < INNER; row++)
        for (int column = 0; column < COLUMNS; column++)
            right[row][column] = -right[row][column];
}

static void print(void)
{
    for (int row = 0; row < ROWS; row++) {
        put_text("row");
        for (int column = 0; column < COLUMNS; column++) {
            put_char(' ');
            put_number(product[row][column]);
        }
        end_line();
    }
}

/* How many entries of the product aren't zero. */
static int nonzero(void)
{
    int count = 0;

    for (int row = 0; row < ROWS; row++)
        for (int column = 0; column < COLUMNS; column++)
            if (product[row][column] != 0)
                count++;
    return count;
}

/* Prints the product. With the product of left and -right added, every entry has to be zero again: the exit code is the
   number of those that aren't, 0. */
int main(void)
{
    add_product();
    print();
    negate_right();
    add_product();
    return nonzero();
}
