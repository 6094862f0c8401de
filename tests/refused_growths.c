/* Refuses one growth of a program's memory, that whose number REFUSED_GROWTH has, from 1, or none where that is 0: a library that is loaded
 * before the C library of Linux (LD_PRELOAD). At the program's end it writes to the file that COUNTED_GROWTHS names, where it is set, how many
 * there were. */
#define _GNU_SOURCE
#include <errno.h>
#include <stdio.h>
#include <stdlib.h>

/* What malloc and realloc of glibc call too. */
extern void *__libc_malloc(size_t);
extern void *__libc_realloc(void *, size_t);

static long counted;

/* Counts a growth, and says whether it is refused. */
static int is_refused(void)
{
    static long refused = -1;
    if (refused < 0) {
        const char *number = getenv("REFUSED_GROWTH");
        refused = number ? atol(number) : 0;
    }
    if (++counted != refused)
        return 0;
    errno = ENOMEM;
    return 1;
}

void *malloc(size_t size)
{
    return is_refused() ? NULL : __libc_malloc(size);
}

void *realloc(void *old, size_t size)
{
    return is_refused() ? NULL : __libc_realloc(old, size);
}

__attribute__((destructor)) static void write_count(void)
{
    const char *path = getenv("COUNTED_GROWTHS");
    const long growths = counted;
    FILE *file = path ? fopen(path, "w") : NULL;
    if (file) {
        fprintf(file, "%ld", growths);
        fclose(file);
    }
}
