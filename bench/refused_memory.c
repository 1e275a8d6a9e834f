// Refuses one piece of memory to the program that it is loaded into: the n-th that it asks for, counted from 1, where REFUSED is n.
// When it does so, it makes the file that REACHED names.
#include <errno.h>
#include <fcntl.h>
#include <stdatomic.h>
#include <stddef.h>
#include <stdlib.h>
#include <unistd.h>

extern void *__libc_malloc(size_t);
extern void *__libc_calloc(size_t, size_t);
extern void *__libc_realloc(void *, size_t);
extern void *__libc_memalign(size_t, size_t);

static atomic_long asked;
static long refused = -1;
static const char *reached;

__attribute__((constructor)) static void begin(void)
{
    const char *number = getenv("REFUSED");
    reached = getenv("REACHED");
    atomic_store(&asked, 0);
    refused = number ? atol(number) : -1;
}

static int is_refused(void)
{
    if (atomic_fetch_add(&asked, 1) + 1 != refused)
        return 0;
    if (reached)
        close(open(reached, O_CREAT | O_WRONLY, 0600));
    errno = ENOMEM;
    return 1;
}

void *malloc(size_t size) { return is_refused() ? NULL : __libc_malloc(size); }
void *calloc(size_t count, size_t size) { return is_refused() ? NULL : __libc_calloc(count, size); }
void *realloc(void *old, size_t size) { return is_refused() ? NULL : __libc_realloc(old, size); }
void *memalign(size_t align, size_t size) { return is_refused() ? NULL : __libc_memalign(align, size); }
void *aligned_alloc(size_t align, size_t size) { return is_refused() ? NULL : __libc_memalign(align, size); }

int posix_memalign(void **made, size_t align, size_t size)
{
    if (is_refused())
        return ENOMEM;
    void *new = __libc_memalign(align, size);
    if (!new)
        return ENOMEM;
    *made = new;
    return 0;
}
