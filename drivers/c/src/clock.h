/* Moments, in seconds on the clock that nobody sets. */
#ifndef CLOCK_H
#define CLOCK_H
#include <time.h>

double now(void);
struct timespec timespec_of(double moment);
#endif
