/* How a process speculates by itself, on a machine that is called with `--calls`. A program includes this file behind guest.h. */

#define REQUEST_SPECULATE 1025
#define REQUEST_COMMIT 1026
#define REQUEST_DISCARD 1027

/* Begins a speculation, and answers 0. Where it is discarded, this call answers a second time, then with 1: every register and all memory are
   as they were, the stack and the program's variables too. Answers -1, and begins none, where there is one already; and -38 on a machine
   without `--calls`. */
static inline long speculate(void)
{
    return request(REQUEST_SPECULATE, 0, 0, 0);
}

/* Ends the speculation, and keeps what was done since it began. Answers 0, or -1 where there is none. */
static inline long commit(void)
{
    return request(REQUEST_COMMIT, 0, 0, 0);
}

/* Ends the speculation, and takes back what was done since it began: the process goes on where `speculate` answers 1, so this call doesn't
   return. It answers -1 where there is none. */
static inline long discard(void)
{
    return request(REQUEST_DISCARD, 0, 0, 0);
}
