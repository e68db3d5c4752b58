/* For status-of-two-clocks.py: CLOCK_MONOTONIC is so many seconds ahead of CLOCK_MONOTONIC_RAW, or behind it, as the variable APART says. */
#define _GNU_SOURCE
#include <stdlib.h>
#include <time.h>
#include <unistd.h>
#include <sys/syscall.h>

int clock_gettime(clockid_t clock, struct timespec *time) {
    const char *apart = getenv("APART");
    int done = (int)syscall(SYS_clock_gettime, clock == CLOCK_MONOTONIC ? CLOCK_MONOTONIC_RAW : clock, time);
    if (done == 0 && clock == CLOCK_MONOTONIC && apart != NULL)
        time->tv_sec += atol(apart);
    return done;
}
