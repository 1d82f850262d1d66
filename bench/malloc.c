/* A malloc for `bench/growths`: a size of 2^60 and a number refuses the request with that number, where the next one is 1;
 * the number 2^32 refuses all, and 0 none. It tells on standard error how many requests it refused. */
#include <stddef.h>
#include <stdio.h>
#include <unistd.h>

void *__libc_malloc(size_t size);
void *__libc_realloc(void *block, size_t size);

static const size_t command = (size_t)1 << 60, every = (size_t)1 << 32;

/* The number of the request that is refused, counted down. */
static size_t left;

static unsigned long refused;

static int is_refused(size_t size)
{
    if (size >> 60 == 1) {
        left = size - command;
        return 1;
    }
    if (left == 0 || (left != every && --left != 0))
        return 0;
    refused++;
    return 1;
}

void *malloc(size_t size)
{
    return is_refused(size) ? NULL : __libc_malloc(size);
}

void *realloc(void *block, size_t size)
{
    return is_refused(size) ? NULL : __libc_realloc(block, size);
}

__attribute__((destructor)) static void tell(void)
{
    if (refused != 0)
        dprintf(STDERR_FILENO, "refused %lu\n", refused);
}
