/* Writes to a null pointer. The others don't notice. */

#include "../guest.h"

int main(void)
{
    volatile long *nowhere = 0;

    put_text("about to store ");
    put_number(42);
    end_line();
    *nowhere = 42;
    return 0;
}
