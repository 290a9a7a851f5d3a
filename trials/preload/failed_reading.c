// Loaded into a program before its other libraries, this fails calls of clock_gettime for CLOCK_MONOTONIC, which it counts
// from 1. FAILED_READING is N: call N alone fails; or -N: call N and all later ones fail. Calls for other clocks aren't counted.
#define _GNU_SOURCE
#include <errno.h>
#include <stdlib.h>
#include <sys/syscall.h>
#include <time.h>
#include <unistd.h>

static long left;
static int for_good;

__attribute__((constructor)) static void begin(void) {
    const char *number = getenv("FAILED_READING");
    left = number ? atol(number) : 0;
    for_good = left < 0;
    left = labs(left);
}

int clock_gettime(clockid_t clock, struct timespec *time) {
    if (clock == CLOCK_MONOTONIC && left > 0 && --left == 0) {
        left = for_good;
        errno = EINVAL;
        return -1;
    }
    return syscall(SYS_clock_gettime, clock, time);
}
