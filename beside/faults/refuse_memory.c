/*
 * Refuses the N-th request for memory of a program, and with REFUSE_LATER all behind it: loaded before the C library
 * (LD_PRELOAD), by ./refuse_memory. Where the request was met, the file that REFUSED names is made.
 */
#define _GNU_SOURCE
#include <errno.h>
#include <fcntl.h>
#include <stdatomic.h>
#include <stdlib.h>
#include <unistd.h>

extern void *__libc_malloc(size_t size);
extern void *__libc_calloc(size_t count, size_t size);
extern void *__libc_realloc(void *old, size_t size);
extern void *__libc_memalign(size_t alignment, size_t size);

static atomic_ulong requests;
static unsigned long refused;
static int later;
static const char *met;

/* A request before this has run belongs to the loader, and is never refused. */
__attribute__((constructor)) static void read_environment(void)
{
    const char *number = getenv("REFUSE");
    met = getenv("REFUSED");
    later = getenv("REFUSE_LATER") != NULL;
    refused = number ? strtoul(number, NULL, 10) : 0;
}

static int is_refused(void)
{
    if (refused == 0)
        return 0;
    unsigned long number = atomic_fetch_add(&requests, 1) + 1;
    if (number != refused && !(later && number > refused))
        return 0;
    if (number == refused && met)
        close(open(met, O_WRONLY | O_CREAT | O_CLOEXEC, 0600));
    errno = ENOMEM;
    return 1;
}

void *malloc(size_t size)
{
    return is_refused() ? NULL : __libc_malloc(size);
}

void *calloc(size_t count, size_t size)
{
    return is_refused() ? NULL : __libc_calloc(count, size);
}

void *realloc(void *old, size_t size)
{
    return is_refused() ? NULL : __libc_realloc(old, size);
}

void *memalign(size_t alignment, size_t size)
{
    return is_refused() ? NULL : __libc_memalign(alignment, size);
}

void *aligned_alloc(size_t alignment, size_t size)
{
    return memalign(alignment, size);
}

int posix_memalign(void **place, size_t alignment, size_t size)
{
    void *block = memalign(alignment, size);
    if (block == NULL)
        return ENOMEM;
    *place = block;
    return 0;
}
