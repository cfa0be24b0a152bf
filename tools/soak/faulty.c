/* The C library with one call that fails, for a program that is run under LD_PRELOAD.
 *
 * REFUSE=n   the nth allocation finds no memory, counted from 1; none where n is 0
 * READ=n     the nth read of standard input fails
 * WRITE=n    the nth write to standard output fails
 * SHORT=n    each read and each write takes at most n bytes
 * THREAD=n   the nth thread can't be made
 *
 * How many allocations, reads, writes and threads there were is written to descriptor TELL as the program ends.
 */
#define _GNU_SOURCE
#include <dlfcn.h>
#include <errno.h>
#include <pthread.h>
#include <stdio.h>
#include <stdlib.h>
#include <unistd.h>

static long allocations, reads, writes, threads;

static long wanted(const char *name)
{
    const char *text = getenv(name);
    return text ? atol(text) : 0;
}

static int is_refused(void)
{
    if (++allocations != wanted("REFUSE"))
        return 0;
    errno = ENOMEM;
    return 1;
}

void *malloc(size_t size)
{
    static void *(*next)(size_t);
    if (!next)
        next = dlsym(RTLD_NEXT, "malloc");
    return is_refused() ? NULL : next(size);
}

void *realloc(void *old, size_t size)
{
    static void *(*next)(void *, size_t);
    if (!next)
        next = dlsym(RTLD_NEXT, "realloc");
    return is_refused() ? NULL : next(old, size);
}

int posix_memalign(void **place, size_t alignment, size_t size)
{
    static int (*next)(void **, size_t, size_t);
    if (!next)
        next = dlsym(RTLD_NEXT, "posix_memalign");
    return is_refused() ? ENOMEM : next(place, alignment, size);
}

void *aligned_alloc(size_t alignment, size_t size)
{
    static void *(*next)(size_t, size_t);
    if (!next)
        next = dlsym(RTLD_NEXT, "aligned_alloc");
    return is_refused() ? NULL : next(alignment, size);
}

static size_t cut(size_t size)
{
    long most = wanted("SHORT");
    return most && size > (size_t)most ? (size_t)most : size;
}

ssize_t read(int file, void *into, size_t size)
{
    static ssize_t (*next)(int, void *, size_t);
    if (!next)
        next = dlsym(RTLD_NEXT, "read");
    if (file != STDIN_FILENO)
        return next(file, into, size);
    if (++reads == wanted("READ")) {
        errno = EIO;
        return -1;
    }
    return next(file, into, cut(size));
}

ssize_t write(int file, const void *from, size_t size)
{
    static ssize_t (*next)(int, const void *, size_t);
    if (!next)
        next = dlsym(RTLD_NEXT, "write");
    if (file != STDOUT_FILENO)
        return next(file, from, size);
    if (++writes == wanted("WRITE")) {
        errno = EIO;
        return -1;
    }
    return next(file, from, cut(size));
}

int pthread_create(pthread_t *thread, const pthread_attr_t *how, void *(*run)(void *), void *with)
{
    static int (*next)(pthread_t *, const pthread_attr_t *, void *(*)(void *), void *);
    if (!next)
        next = dlsym(RTLD_NEXT, "pthread_create");
    return ++threads == wanted("THREAD") ? EAGAIN : next(thread, how, run, with);
}

__attribute__((destructor)) static void tell(void)
{
    static int is_told;
    if (is_told++)
        return;
    dprintf((int)wanted("TELL"), "%ld %ld %ld %ld\n", allocations, reads, writes, threads);
}

void _exit(int status)
{
    void (*next)(int) = (void (*)(int))dlsym(RTLD_NEXT, "_exit");
    tell();
    next(status);
    __builtin_unreachable();
}
