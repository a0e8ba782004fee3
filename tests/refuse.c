/* Refuses one request for memory of the program that this library is loaded into by LD_PRELOAD: the one whose number is in
 * REFUSE. Requests are counted from 1, from the program's start. A refusal is reported by a line on standard error.
 * The other requests go to the C library, by the names that glibc has for this use. */
#include <errno.h>
#include <stddef.h>
#include <stdlib.h>
#include <unistd.h>

extern void *__libc_malloc(size_t size);
extern void *__libc_calloc(size_t count, size_t size);
extern void *__libc_realloc(void *block, size_t size);

/* 0 until the first request, since no constructor may have run before. */
static long refused_request;
static long requests;

static int is_refused(void)
{
    static const char line[] = "refused\n";

    if (requests == 0) {
        const char *word = getenv("REFUSE");
        refused_request = word ? strtol(word, NULL, 10) : 0;
    }
    requests += 1;
    if (requests != refused_request)
        return 0;
    if (write(STDERR_FILENO, line, sizeof line - 1) != (ssize_t)(sizeof line - 1))
        abort();
    errno = ENOMEM;
    return 1;
}

void *malloc(size_t size)
{
    return is_refused() ? NULL : __libc_malloc(size);
}

void *calloc(size_t count, size_t size)
{
    return is_refused() ? NULL : __libc_calloc(count, size);
}

void *realloc(void *block, size_t size)
{
    return is_refused() ? NULL : __libc_realloc(block, size);
}
