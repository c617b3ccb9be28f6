/* Puts eight queens on a chessboard, one in each row, so that none attacks another. Where a row has one free square alone
   it takes that; where there are several, the process's number says which column. So processes that go on from the same
   place with different numbers search different boards. */

#include "../guest.h"

#define REQUEST_PROCESS 172
#define SIDE 8

/* How long it waits before it asks for its number: 400,000 instructions. */
#define ROUNDS 200000

/* Squares that are attacked, row by row. A board is one line of memory. */
struct board {
    unsigned char attacked[SIDE][SIDE];
} __attribute__((aligned(64)));

/* For each square, what a queen on it attacks. The table is a page. */
static struct board attacks[SIDE][SIDE] __attribute__((aligned(4096)));

/* For each row, the board on which its queen is put: that of the row above it, with the queen there. */
static struct board boards[SIDE + 1];

/* The columns of the queens, counted from 1. */
static int columns[SIDE];

static void fill_attacks(void)
{
    for (int row = 0; row < SIDE; row++)
        for (int column = 0; column < SIDE; column++)
            for (int r = 0; r < SIDE; r++)
                for (int c = 0; c < SIDE; c++)
                    attacks[row][column].attacked[r][c] =
                        r == row || c == column || r - c == row - column || r + c == row + column;
}

static int is_free(int row, int column)
{
    return column <= SIDE && !boards[row].attacked[row][column - 1];
}

/* Says which columns of the row are free, and answers how many. `free` is then the last of them. */
static int say_free(int row, int *free)
{
    int count = 0;

    put_text("row ");
    put_number(row + 1);
    put_text(": free");
    for (int column = 1; column <= SIDE; column++)
        if (is_free(row, column)) {
            put_char(' ');
            put_number(column);
            *free = column;
            count++;
        }
    if (count == 0)
        put_text(" none");
    end_line();
    return count;
}

static void put_queen(int row, int column)
{
    const struct board *queen = &attacks[row][column - 1];

    columns[row] = column;
    for (int r = 0; r < SIDE; r++)
        for (int c = 0; c < SIDE; c++)
            boards[row + 1].attacked[r][c] = boards[row].attacked[r][c] | queen->attacked[r][c];
}

/* The exit code is how many queens were put. */
int main(void)
{
    touch_stack();
    fill_attacks();
    for (int row = 0; row < SIDE; row++) {
        int column = 0;
        int count = say_free(row, &column);

        if (count == 0)
            return row;
        if (count > 1) {
            wait_rounds(ROUNDS);
            column = request(REQUEST_PROCESS, 0, 0, 0);
        }
        if (!is_free(row, column)) {
            put_text("not free: ");
            put_number(column);
            end_line();
            return row;
        }
        put_queen(row, column);
    }
    put_text("queens at");
    for (int row = 0; row < SIDE; row++) {
        put_char(' ');
        put_number(columns[row]);
    }
    end_line();
    return SIDE;
}
