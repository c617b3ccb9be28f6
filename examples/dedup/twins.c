/* Fills a table of ten pages, and writes the number of its process into some lines of each: into none of the first page, and into 32 of
   the last. Processes that were loaded of this file have the same in all other lines. It waits, writes one line more of each page, waits
   once more, and says what came of it. */

#include "../guest.h"

#define REQUEST_PROCESS 172
#define PAGES 10
#define PAGE_LINES 64
#define LINE 8

/* How long it waits: 400,000 instructions. */
#define ROUNDS 200000

/* A line of memory. */
struct line {
    long numbers[LINE];
};

/* It stands in the file, so that each of its pages has a frame from the start. */
static struct line table[PAGES][PAGE_LINES] __attribute__((aligned(4096))) = { { { { 1 } } } };

/* Into how many lines of each page the process writes its number: the most that an overlay of each size has, and one more. */
static const int marked[PAGES] = { 0, 1, 3, 4, 7, 8, 15, 16, 31, 32 };

/* Each number of the table is the sum of the one before it and its place. */
static void fill(void)
{
    long last = 0;

    for (int page = 0; page < PAGES; page++)
        for (int at = 0; at < PAGE_LINES; at++)
            for (int i = 0; i < LINE; i++) {
                last += i + at;
                table[page][at].numbers[i] = last;
            }
}

static void mark(long number)
{
    for (int page = 0; page < PAGES; page++)
        for (int at = 0; at < marked[page]; at++)
            table[page][at].numbers[0] = number;
}

/* How many lines have the number in their first place. */
static long count(long number)
{
    long lines = 0;

    for (int page = 0; page < PAGES; page++)
        for (int at = 0; at < PAGE_LINES; at++)
            if (table[page][at].numbers[0] == number)
                lines++;
    return lines;
}

/* The exit code is 0 where its number stands in the lines that it was written into, and in no other. */
int main(void)
{
    long number = -request(REQUEST_PROCESS, 0, 0, 0);
    long lines = PAGES;

    touch_stack();
    fill();
    mark(number);
    wait_rounds(ROUNDS);
    for (int page = 0; page < PAGES; page++)
        table[page][PAGE_LINES - 1].numbers[0] = number;
    wait_rounds(ROUNDS);

    for (int page = 0; page < PAGES; page++)
        lines += marked[page];
    put_text("lines with my number: ");
    put_number(count(number));
    end_line();
    return count(number) != lines;
}
