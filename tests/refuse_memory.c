/* Preloaded into a program, refuses one of its requests for memory.
 *
 * REFUSE_MEMORY=N     the Nth request to malloc, calloc or realloc, counted from 1, is answered with no memory; with 0 none is
 * REFUSE_COUNT=FILE   at the end the number of requests that were made is written to this file
 */
#define _GNU_SOURCE
#include <errno.h>
#include <fcntl.h>
#include <stddef.h>
#include <stdlib.h>
#include <unistd.h>

void *__libc_malloc(size_t size);
void *__libc_calloc(size_t count, size_t size);
void *__libc_realloc(void *old, size_t size);

static unsigned long made;
static unsigned long refused;

/* Whether this request is the one that is refused. */
static int is_refused(void)
{
    made += 1;
    if (made != refused)
        return 0;
    errno = ENOMEM;
    return 1;
}

void *malloc(size_t size)
{
    return is_refused() ? NULL : __libc_malloc(size);
}

void *calloc(size_t count, size_t size)
{
    return is_refused() ? NULL : __libc_calloc(count, size);
}

void *realloc(void *old, size_t size)
{
    return is_refused() ? NULL : __libc_realloc(old, size);
}

__attribute__((constructor)) static void begin(void)
{
    const char *n = getenv("REFUSE_MEMORY");
    made = 0;
    refused = n ? strtoul(n, NULL, 10) : 0;
}

__attribute__((destructor)) static void tell(void)
{
    const char *name = getenv("REFUSE_COUNT");
    char digits[32];
    size_t at = sizeof digits;
    unsigned long n = made;
    int file = name ? open(name, O_WRONLY | O_CREAT | O_TRUNC, 0644) : -1;
    if (file < 0)
        return;
    digits[--at] = '\n';
    do
        digits[--at] = '0' + n % 10;
    while (n /= 10);
    if (write(file, digits + at, sizeof digits - at) < 0)
        _exit(125);
    close(file);
}
