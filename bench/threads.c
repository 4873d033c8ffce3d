/* Tells of a program's first thread, from the start of the first other thread to its first wait for one: a line on standard error with the
   nanoseconds that passed, those that it was on a processor, its page faults, and how often it left its processor while it could go on.
   Preloaded, it stands before the C library's calls; it takes the figures and passes the calls on. With THREADS_ALONE in the environment no
   other thread comes to the processor that the first one is on when it starts them. */
#define _GNU_SOURCE
#include <dlfcn.h>
#include <pthread.h>
#include <sched.h>
#include <stdio.h>
#include <stdlib.h>
#include <sys/resource.h>
#include <time.h>
#include <unistd.h>

struct figures {
    long long passed, busy;
    long faults, left;
};

static struct figures begun;
static int has_begun, is_alone;
static cpu_set_t rest;

static long long nanoseconds(clockid_t clock)
{
    struct timespec at;
    clock_gettime(clock, &at);
    return at.tv_sec * 1000000000LL + at.tv_nsec;
}

static struct figures now(void)
{
    struct rusage used;
    getrusage(RUSAGE_THREAD, &used);
    return (struct figures){nanoseconds(CLOCK_MONOTONIC), nanoseconds(CLOCK_THREAD_CPUTIME_ID), used.ru_minflt, used.ru_nivcsw};
}

/* The processor that the first thread is on is its own: `rest` is all others. */
static void stay_alone(void)
{
    is_alone = !sched_getaffinity(0, sizeof rest, &rest) && CPU_COUNT(&rest) > 1;
    CPU_CLR(sched_getcpu(), &rest);
}

int pthread_create(pthread_t *thread, const pthread_attr_t *attributes, void *(*start)(void *), void *argument)
{
    int (*next)(pthread_t *, const pthread_attr_t *, void *(*)(void *), void *) = dlsym(RTLD_NEXT, "pthread_create");
    pthread_attr_t elsewhere;
    size_t stack, guard;
    int is_first = gettid() == getpid(), status;
    if (!has_begun && is_first) {
        has_begun = 1;
        if (getenv("THREADS_ALONE"))
            stay_alone();
        begun = now();
    }
    if (!is_alone || !is_first)
        return next(thread, attributes, start, argument);
    pthread_attr_init(&elsewhere);
    if (attributes) {
        pthread_attr_getstacksize(attributes, &stack);
        pthread_attr_getguardsize(attributes, &guard);
        pthread_attr_setstacksize(&elsewhere, stack);
        pthread_attr_setguardsize(&elsewhere, guard);
    }
    pthread_attr_setaffinity_np(&elsewhere, sizeof rest, &rest);
    status = next(thread, &elsewhere, start, argument);
    pthread_attr_destroy(&elsewhere);
    return status;
}

int pthread_join(pthread_t thread, void **result)
{
    static int told;
    int (*next)(pthread_t, void **) = dlsym(RTLD_NEXT, "pthread_join");
    if (!told && gettid() == getpid()) {
        struct figures end = now();
        told = 1;
        dprintf(STDERR_FILENO, "%lld %lld %ld %ld\n", end.passed - begun.passed, end.busy - begun.busy, end.faults - begun.faults, end.left - begun.left);
    }
    return next(thread, result);
}
