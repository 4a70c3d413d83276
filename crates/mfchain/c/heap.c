/* What the library takes memory by, over malloc, realloc and free, for a machine on which the kit has no small C
 * library of its own (liblibc_c.a): a caller there compiles this file too. */
#include <stdbool.h>
#include <stddef.h>
#include <stdlib.h>

/* Whether there was memory, and where. */
struct taken {
    bool is_there;
    void *at;
};

/* Where memory is that there was not: a pointer is never null. */
static char nowhere;

static struct taken taken(void *at)
{
    return (struct taken){at != NULL, at != NULL ? at : &nowhere};
}

/* Some bytes, aligned as malloc does it, which is for any number and any pointer. None are as many as the alignment. */
struct taken rattle_alloc(size_t bytes, size_t alignment)
{
    return taken(malloc(bytes != 0 ? bytes : alignment));
}

struct taken rattle_realloc(void *old, size_t old_bytes, size_t bytes, size_t alignment)
{
    (void)old_bytes;
    return taken(realloc(old, bytes != 0 ? bytes : alignment));
}

void rattle_dealloc(void *at)
{
    free(at);
}
