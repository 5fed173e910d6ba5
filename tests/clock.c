/* A clock that somebody sets again and again: at each reading the time of day is another one, by
 * up to ten days. The clock that nobody sets is as it was. (LD_PRELOAD; tests/clock builds it.) */
#define _GNU_SOURCE
#include <dlfcn.h>
#include <stdatomic.h>
#include <sys/time.h>
#include <time.h>

enum { A_DAY = 86400 };

static time_t set_by(void)
{
    static const int days[] = {0, 1, -1, 10, 0, -10};
    static atomic_uint readings;

    return days[readings++ % (sizeof days / sizeof *days)] * (time_t)A_DAY;
}

int clock_gettime(clockid_t clock, struct timespec *now)
{
    static int (*real)(clockid_t, struct timespec *);

    if (real == NULL)
        *(void **)&real = dlsym(RTLD_NEXT, "clock_gettime");
    int status = real(clock, now);
    if (status == 0 && (clock == CLOCK_REALTIME || clock == CLOCK_REALTIME_COARSE))
        now->tv_sec += set_by();
    return status;
}

int gettimeofday(struct timeval *restrict now, void *restrict zone)
{
    struct timespec it;

    (void)zone;
    if (clock_gettime(CLOCK_REALTIME, &it) != 0)
        return -1;
    *now = (struct timeval){.tv_sec = it.tv_sec, .tv_usec = it.tv_nsec / 1000};
    return 0;
}

time_t time(time_t *to)
{
    struct timespec it;

    if (clock_gettime(CLOCK_REALTIME, &it) != 0)
        return -1;
    if (to != NULL)
        *to = it.tv_sec;
    return it.tv_sec;
}
