/* Moments, in seconds on the clock that nobody sets. */
#include "clock.h"

double now(void)
{
    struct timespec it;

    clock_gettime(CLOCK_MONOTONIC, &it);
    return (double)it.tv_sec + (double)it.tv_nsec / 1e9;
}

struct timespec timespec_of(double moment)
{
    time_t whole = (time_t)moment;

    return (struct timespec){.tv_sec = whole, .tv_nsec = (long)((moment - (double)whole) * 1e9)};
}
