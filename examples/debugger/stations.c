/* Says which station of a line lies at a height: the heights ascend, and are searched by halving. One is not found
   that is there: there is a mistake in the search, which the script finds and mends. */

#include "../guest.h"

#define STATIONS 12

static const int heights[STATIONS] = {
    412, 430, 455, 518, 640, 702, 833, 951, 1102, 1280, 1644, 2061
};

/* The place in the table of this height, counted from 0, or -1 where it isn't there. In each round it can only be at a
   place from `from` on and before `to`. */
static __attribute__((noinline)) int place_of(int height)
{
    int from = 0, to = STATIONS - 1;

    while (from < to) {
        int middle = from + ((to - from) >> 1);

        if (heights[middle] == height)
            return middle;
        if (heights[middle] < height)
            from = middle + 1;
        else
            to = middle;
    }
    return -1;
}

/* Whether a station was found. */
static int say(int height)
{
    int place = place_of(height);

    put_number(height);
    put_text(" m: ");
    if (place < 0) {
        put_text("none");
    } else {
        put_text("station ");
        put_number(place + 1);
    }
    end_line();
    return place >= 0;
}

/* The exit code is how many of the two weren't found. */
int main(void)
{
    int found = say(1280);

    found += say(2061);
    return 2 - found;
}
