/* The clock of the benches, and the core that one stays on. A file that includes it first defines _GNU_SOURCE. */
#ifndef TIMING_H
#define TIMING_H

#include <time.h>
#ifdef __linux__
#include <sched.h>
#endif

/* In nanoseconds. */
static inline double now(void)
{
    struct timespec t;
    clock_gettime(CLOCK_MONOTONIC, &t);
    return (double)t.tv_sec * 1e9 + (double)t.tv_nsec;
}

/* Stays on the core that it is on, where the system has a call for it. */
static inline void pin(void)
{
#ifdef __linux__
    cpu_set_t one;
    const int core = sched_getcpu();
    CPU_ZERO(&one);
    if (core >= 0 && core < CPU_SETSIZE) {
        CPU_SET(core, &one);
        sched_setaffinity(0, sizeof one, &one);
    }
#endif
}

#endif
