/* In front of `malloc`: refuses the allocation whose number REFUSED is, of whatever thread; of each process anew.
 * examples/refuse and examples/kept build it. */
#define _GNU_SOURCE
#include <dlfcn.h>
#include <errno.h>
#include <stdlib.h>
#include <unistd.h>

static long nth = -1;
static long count;

/* Whether this allocation is the one to be refused, of whatever thread. Descriptor 9 hears of it. */
static int refused(void)
{
    if (nth < 0) {
        const char *word = getenv("REFUSED");
        nth = word ? atol(word) : 0;
    }
    if (nth == 0 || __atomic_add_fetch(&count, 1, __ATOMIC_SEQ_CST) != nth)
        return 0;
    if (write(9, "refused\n", 8) < 0)
        _exit(99);
    errno = ENOMEM;
    return 1;
}

void *malloc(size_t size)
{
    static void *(*real)(size_t);
    if (!real)
        real = (void *(*)(size_t))dlsym(RTLD_NEXT, "malloc");
    return refused() ? NULL : real(size);
}

void *realloc(void *old, size_t size)
{
    static void *(*real)(void *, size_t);
    if (!real)
        real = (void *(*)(void *, size_t))dlsym(RTLD_NEXT, "realloc");
    return refused() ? NULL : real(old, size);
}

int posix_memalign(void **to, size_t alignment, size_t size)
{
    static int (*real)(void **, size_t, size_t);
    if (!real)
        real = (int (*)(void **, size_t, size_t))dlsym(RTLD_NEXT, "posix_memalign");
    return refused() ? ENOMEM : real(to, alignment, size);
}

void *aligned_alloc(size_t alignment, size_t size)
{
    static void *(*real)(size_t, size_t);
    if (!real)
        real = (void *(*)(size_t, size_t))dlsym(RTLD_NEXT, "aligned_alloc");
    return refused() ? NULL : real(alignment, size);
}
