/* The memory of the library: what its proved code asks of the system, over malloc, realloc and free of the program.
 * The names and the shape of the answer are those that code of the toolchain calls. They are weak, so that a program may hold two such libraries. */
#include <stdbool.h>
#include <stddef.h>
#include <stdlib.h>

struct tried {
    bool ok;
    unsigned char *block;
};

static unsigned char nothing[16];

static struct tried tried(void *block)
{
    struct tried answer = {block != NULL, block ? block : nothing};
    return answer;
}

/* A size of 0 asks for a block of its own all the same. */
static size_t at_least(size_t size, size_t alignment)
{
    return size ? size : alignment;
}

__attribute__((weak)) struct tried rattle_alloc(size_t size, size_t alignment)
{
    return tried(malloc(at_least(size, alignment)));
}

__attribute__((weak)) struct tried rattle_realloc(unsigned char *block, size_t kept, size_t size, size_t alignment)
{
    (void)kept;
    return tried(realloc(block, at_least(size, alignment)));
}

__attribute__((weak)) void rattle_dealloc(unsigned char *block)
{
    free(block);
}
