/* A clock for trials, preloaded before a program that is linked dynamically: CLOCK_REALTIME comes
   from the file that CLOCK_LIST names, whole microseconds since 1970, one a line. Each reading
   takes the next line; the last one stays. Other clocks, and all without CLOCK_LIST, are real. */
#define _GNU_SOURCE
#include <dlfcn.h>
#include <stdio.h>
#include <stdlib.h>
#include <sys/time.h>
#include <time.h>

static long long next_moment(void) {
    static FILE *list;
    static int opened;
    static long long moment;
    if (!opened) {
        opened = 1;
        list = fopen(getenv("CLOCK_LIST"), "r");
    }
    if (list && fscanf(list, "%lld", &moment) != 1) {
        fclose(list);
        list = NULL;
    }
    return moment;
}

int clock_gettime(clockid_t clock, struct timespec *time) {
    static int (*real)(clockid_t, struct timespec *);
    if (clock != CLOCK_REALTIME || !getenv("CLOCK_LIST")) {
        if (!real) real = dlsym(RTLD_NEXT, "clock_gettime");
        return real(clock, time);
    }
    long long moment = next_moment();
    long long micros = moment % 1000000;
    if (micros < 0) micros += 1000000; /* the seconds are rounded down, also before 1970 */
    time->tv_sec = (moment - micros) / 1000000;
    time->tv_nsec = micros * 1000;
    return 0;
}

int gettimeofday(struct timeval *time, void *zone) {
    (void)zone;
    struct timespec now;
    int result = clock_gettime(CLOCK_REALTIME, &now);
    time->tv_sec = now.tv_sec;
    time->tv_usec = now.tv_nsec / 1000;
    return result;
}
