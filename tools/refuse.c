/* Refuses a program one call that asks for memory, or one that starts a thread. It is loaded before the C library
   (LD_PRELOAD). REFUSE_MEMORY or REFUSE_THREAD is the number of the call that is refused, counted from 1. Each refusal
   is told by a byte on the descriptor REFUSALS. */
#define _GNU_SOURCE
#include <dlfcn.h>
#include <errno.h>
#include <pthread.h>
#include <stdatomic.h>
#include <stdlib.h>
#include <unistd.h>

static long number_in(const char *name)
{
    const char *text = getenv(name);
    return text ? atol(text) : 0;
}

static int is_refused(atomic_long *calls, const char *name)
{
    int is_next = atomic_fetch_add(calls, 1) + 1 == number_in(name);
    return is_next && write((int)number_in("REFUSALS"), "x", 1) == 1;
}

static atomic_long growths, threads;

void *malloc(size_t size)
{
    static void *(*make)(size_t);
    if (!make)
        make = (void *(*)(size_t))dlsym(RTLD_NEXT, "malloc");
    if (!is_refused(&growths, "REFUSE_MEMORY"))
        return make(size);
    errno = ENOMEM;
    return NULL;
}

void *realloc(void *held, size_t size)
{
    static void *(*grow)(void *, size_t);
    if (!grow)
        grow = (void *(*)(void *, size_t))dlsym(RTLD_NEXT, "realloc");
    if (!is_refused(&growths, "REFUSE_MEMORY"))
        return grow(held, size);
    errno = ENOMEM;
    return NULL;
}

int pthread_create(pthread_t *made, const pthread_attr_t *how, void *(*call)(void *), void *given)
{
    static int (*start)(pthread_t *, const pthread_attr_t *, void *(*)(void *), void *);
    if (!start)
        start = (int (*)(pthread_t *, const pthread_attr_t *, void *(*)(void *), void *))dlsym(RTLD_NEXT, "pthread_create");
    return is_refused(&threads, "REFUSE_THREAD") ? EAGAIN : start(made, how, call, given);
}
