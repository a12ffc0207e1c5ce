/* Preloaded into a program, it refuses one growth of memory: the call of this number, of those that ask the C library
 * for memory, counted from 1 over all threads. REFUSE has the number, and the file that MARK names is made once the call
 * was refused. */
#include <errno.h>
#include <fcntl.h>
#include <stdatomic.h>
#include <stdlib.h>
#include <unistd.h>

static atomic_long calls;
static long refused;

__attribute__((constructor)) static void begin(void)
{
    const char *number = getenv("REFUSE");
    atomic_store(&calls, 0);
    refused = number ? atol(number) : 0;
}

static int is_refused(void)
{
    const char *mark = getenv("MARK");
    if (refused == 0 || atomic_fetch_add(&calls, 1) + 1 != refused)
        return 0;
    if (mark)
        close(open(mark, O_CREAT | O_WRONLY, 0600));
    errno = ENOMEM;
    return 1;
}

extern void *__libc_malloc(size_t);
extern void *__libc_calloc(size_t, size_t);
extern void *__libc_realloc(void *, size_t);
extern void *__libc_memalign(size_t, size_t);

void *malloc(size_t size)
{
    return is_refused() ? NULL : __libc_malloc(size);
}

void *calloc(size_t count, size_t size)
{
    return is_refused() ? NULL : __libc_calloc(count, size);
}

void *realloc(void *block, size_t size)
{
    return is_refused() ? NULL : __libc_realloc(block, size);
}

void *aligned_alloc(size_t alignment, size_t size)
{
    return is_refused() ? NULL : __libc_memalign(alignment, size);
}

int posix_memalign(void **block, size_t alignment, size_t size)
{
    if (is_refused())
        return ENOMEM;
    *block = __libc_memalign(alignment, size);
    return *block ? 0 : ENOMEM;
}
