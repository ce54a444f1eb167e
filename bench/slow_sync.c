// Has each sync take at least as many microseconds as SYNC says, as a slower disk does. For bench/serve.py, by LD_PRELOAD.
#define _GNU_SOURCE
#include <dlfcn.h>
#include <stdlib.h>
#include <sys/prctl.h>
#include <time.h>

static long microseconds(void) {
    const char *text = getenv("SYNC");
    return text ? atol(text) : 0;
}

static int slowed(const char *name, int fd) {
    struct timespec end;
    clock_gettime(CLOCK_MONOTONIC, &end);
    end.tv_nsec += microseconds() * 1000;
    end.tv_sec += end.tv_nsec / 1000000000;
    end.tv_nsec %= 1000000000;
    int result = ((int (*)(int))dlsym(RTLD_NEXT, name))(fd);
    prctl(PR_SET_TIMERSLACK, 1);
    clock_nanosleep(CLOCK_MONOTONIC, TIMER_ABSTIME, &end, NULL);
    return result;
}

int fsync(int fd) { return slowed("fsync", fd); }

int fdatasync(int fd) { return slowed("fdatasync", fd); }
