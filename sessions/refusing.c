/* Refuses requests for memory of the program that it is loaded into, for sessions/memory: those from the number REFUSED_FROM to REFUSED_TO, counted from 1.
   Each that is refused is seen as a byte at the descriptor REFUSED_SEEN. */
#include <stdatomic.h>
#include <stddef.h>
#include <stdlib.h>
#include <unistd.h>

void *__libc_malloc(size_t size);
void *__libc_realloc(void *block, size_t size);

static long from, to;
static int seen;
static atomic_long requests;

__attribute__((constructor)) static void read_words(void)
{
    const char *first = getenv("REFUSED_FROM"), *last = getenv("REFUSED_TO"), *descriptor = getenv("REFUSED_SEEN");
    if (first && last && descriptor) {
        to = atol(last);
        seen = atoi(descriptor);
        requests = 0;
        from = atol(first);
    }
}

static int is_refused(void)
{
    if (from == 0)
        return 0;
    long number = atomic_fetch_add(&requests, 1) + 1;
    if (number < from || number > to)
        return 0;
    return write(seen, "r", 1) == 1;
}

void *malloc(size_t size)
{
    return is_refused() ? NULL : __libc_malloc(size);
}

void *realloc(void *block, size_t size)
{
    return is_refused() ? NULL : __libc_realloc(block, size);
}
