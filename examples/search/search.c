/* Finds words in a text, with the method of Knuth, Morris and Pratt: the text is read once, and never backwards. */

#include "../guest.h"

#define LONGEST 16

static const char text[] =
    "A page of memory has 64 lines. An overlay holds some of the lines of a page, "
    "and a page with an overlay is read line by line: from the overlay where it holds the line, "
    "else from the page below. Banana, bandana, banana.";

/* A word to find, and how often it was found. */
struct search {
    const char *word;
    int found;
};

static struct search searches[] = {
    { "overlay", 0 }, { "line", 0 }, { "page", 0 }, { "ana", 0 }, { "ox", 0 }
};

#define SEARCHES (sizeof searches / sizeof searches[0])

/* For each place of a word: how long a front of the word ends there too. */
static int fallback[LONGEST];

static void make_fallback(const char *word)
{
    int front = 0;

    fallback[0] = 0;
    for (int at = 1; word[at]; at++) {
        while (front > 0 && word[at] != word[front])
            front = fallback[front - 1];
        if (word[at] == word[front])
            front++;
        fallback[at] = front;
    }
}

/* Prints where the word stands in the text; places are counted from 0, and may overlap. */
static void find(struct search *search)
{
    const char *word = search->word;
    int matched = 0;

    make_fallback(word);
    put_text(word);
    put_text(" at");
    for (int at = 0; text[at]; at++) {
        while (matched > 0 && text[at] != word[matched])
            matched = fallback[matched - 1];
        if (text[at] == word[matched])
            matched++;
        if (!word[matched]) {
            put_char(' ');
            put_number(at + 1 - matched);
            search->found++;
            matched = fallback[matched - 1];
        }
    }
    if (search->found == 0)
        put_text(" no place");
    end_line();
}

/* The exit code is 0 where each word but the last was found and the last wasn't. */
int main(void)
{
    for (unsigned long k = 0; k < SEARCHES; k++)
        find(&searches[k]);

    put_text("found:");
    for (unsigned long k = 0; k < SEARCHES; k++) {
        put_char(' ');
        put_number(searches[k].found);
    }
    end_line();

    for (unsigned long k = 0; k + 1 < SEARCHES; k++)
        if (searches[k].found == 0)
            return 1;
    return searches[SEARCHES - 1].found == 0 ? 0 : 2;
}
