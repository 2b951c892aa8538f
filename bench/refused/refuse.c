/* Loaded before a program: its allocation REFUSE is refused, which leaves the file MARK, and its clock stands at AT. */
#define _GNU_SOURCE
#include <dlfcn.h>
#include <errno.h>
#include <fcntl.h>
#include <stdlib.h>
#include <time.h>
#include <unistd.h>

static long count;

static int refused(void)
{
    static long number;
    static const char *mark;
    if (!number) {
        const char *given = getenv("REFUSE");
        number = given ? atol(given) : -1;
        mark = getenv("MARK");
    }
    if (++count != number)
        return 0;
    close(open(mark, O_CREAT | O_WRONLY, 0600));
    errno = ENOMEM;
    return 1;
}

void *malloc(size_t size)
{
    static void *(*next)(size_t);
    if (!next)
        next = dlsym(RTLD_NEXT, "malloc");
    return refused() ? NULL : next(size);
}

void *realloc(void *old, size_t size)
{
    static void *(*next)(void *, size_t);
    if (!next)
        next = dlsym(RTLD_NEXT, "realloc");
    return refused() ? NULL : next(old, size);
}

void *aligned_alloc(size_t align, size_t size)
{
    static void *(*next)(size_t, size_t);
    if (!next)
        next = dlsym(RTLD_NEXT, "aligned_alloc");
    return refused() ? NULL : next(align, size);
}

int posix_memalign(void **to, size_t align, size_t size)
{
    static int (*next)(void **, size_t, size_t);
    if (!next)
        next = dlsym(RTLD_NEXT, "posix_memalign");
    return refused() ? ENOMEM : next(to, align, size);
}

int clock_gettime(clockid_t clock, struct timespec *to)
{
    (void)clock;
    to->tv_sec = atol(getenv("AT"));
    to->tv_nsec = 0;
    return 0;
}
