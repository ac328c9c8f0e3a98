/* Preloaded into the program: makes time pass faster. A socket's write time-out is a sixtieth of the requested one: a
   minute becomes a second. Each time the clock is read, it is later than the time before: by HASTEN milliseconds, or by
   three seconds if the environment has no such number. */
#define _GNU_SOURCE
#include <dlfcn.h>
#include <stdlib.h>
#include <sys/socket.h>
#include <sys/time.h>
#include <time.h>

int clock_gettime(clockid_t clock, struct timespec *now) {
    static long time;
    const char *step = getenv("HASTEN");
    (void)clock;
    time += step ? atol(step) : 3000;
    now->tv_sec = time / 1000;
    now->tv_nsec = time % 1000 * 1000000;
    return 0;
}

int setsockopt(int file, int level, int name, const void *value, socklen_t size) {
    struct timeval sooner;
    if (level == SOL_SOCKET && name == SO_SNDTIMEO) {
        const struct timeval *requested = value;
        long long parts = (requested->tv_sec * 1000000LL + requested->tv_usec) / 60;
        sooner.tv_sec = parts / 1000000;
        sooner.tv_usec = parts % 1000000;
        value = &sooner;
    }
    int (*set)(int, int, int, const void *, socklen_t) = (int (*)(int, int, int, const void *, socklen_t))dlsym(
        RTLD_NEXT, "setsockopt");
    return set(file, level, name, value, size);
}
