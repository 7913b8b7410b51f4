/* Loaded before a program, stands in for the machine that it runs on.

   Where PROCESSORS is set the program finds so many processors, and no quota of them. Where TICK is
   set its monotonic clock goes on by so many nanoseconds at each look, and not between two looks; where
   CLOCK is set, too, it stands at so many seconds, or, where these are negative, can't be read.
   Where MANY is set, too, it goes on at the second look alone, and after the first look so many
   threads wait at their first one until all of these have come, or the program ends with 99 after a
   minute. The file LOOKS gets a line for each look, with the nanoseconds of the processors that the
   program had taken by then.

   Where LATE is set, the first thread that is started begins so many milliseconds late. The file
   THREADS gets a byte for each thread that is started. */
#define _GNU_SOURCE
#include <dlfcn.h>
#include <errno.h>
#include <fcntl.h>
#include <pthread.h>
#include <sched.h>
#include <stdarg.h>
#include <stdio.h>
#include <stdlib.h>
#include <string.h>
#include <sys/syscall.h>
#include <time.h>
#include <unistd.h>

static const long SECOND = 1000000000;

static long number(const char *name) {
    const char *text = getenv(name);
    return text ? atol(text) : 0;
}

/* Adds a text to the file that this setting names, if any. */
static void say(const char *setting, const char *text) {
    const char *name = getenv(setting);
    if (name) {
        int file = syscall(SYS_openat, AT_FDCWD, name, O_WRONLY | O_CREAT | O_APPEND | O_CLOEXEC, 0600);
        if (syscall(SYS_write, file, text, strlen(text)) != (long)strlen(text)) {
            abort();
        }
        syscall(SYS_close, file);
    }
}

int sched_getaffinity(pid_t process, size_t size, cpu_set_t *mask) {
    int (*next)(pid_t, size_t, cpu_set_t *) = dlsym(RTLD_NEXT, "sched_getaffinity");
    if (!number("PROCESSORS")) {
        return next(process, size, mask);
    }
    memset(mask, 0, size);
    for (long at = 0; at < number("PROCESSORS"); at++) {
        CPU_SET_S(at, size, mask);
    }
    return 0;
}

long sysconf(int name) {
    long (*next)(int) = dlsym(RTLD_NEXT, "sysconf");
    return name == _SC_NPROCESSORS_ONLN && number("PROCESSORS") ? number("PROCESSORS") : next(name);
}

int open(const char *path, int flags, ...) {
    int (*next)(const char *, int, ...) = dlsym(RTLD_NEXT, "open");
    int mode = 0;
    if ((flags & O_CREAT) || (flags & O_TMPFILE) == O_TMPFILE) {
        va_list rest;
        va_start(rest, flags);
        mode = va_arg(rest, int);
        va_end(rest);
    }
    if (number("PROCESSORS") && !strncmp(path, "/sys/", 5)) {
        errno = ENOENT;
        return -1;
    }
    return next(path, flags, mode);
}

/* Waits, at a thread's first look, for the others. */
static void meet(void) {
    static long threads;
    static __thread int has_come __attribute__((tls_model("initial-exec")));
    if (has_come) {
        return;
    }
    has_come = 1;
    __sync_add_and_fetch(&threads, 1);
    for (int waits = 0; __sync_add_and_fetch(&threads, 0) < number("MANY"); waits++) {
        if (waits == 60000) {
            _exit(99);
        }
        usleep(1000);
    }
}

static void say_taken(void) {
    struct timespec taken;
    char line[32];
    syscall(SYS_clock_gettime, CLOCK_PROCESS_CPUTIME_ID, &taken);
    snprintf(line, sizeof line, "%ld\n", taken.tv_sec * SECOND + taken.tv_nsec);
    say("LOOKS", line);
}

int clock_gettime(clockid_t clock, struct timespec *time) {
    static long looks;
    if (clock != CLOCK_MONOTONIC || !number("TICK")) {
        return syscall(SYS_clock_gettime, clock, time);
    }
    long look = __sync_fetch_and_add(&looks, 1);
    say_taken();
    if (getenv("CLOCK")) {
        time->tv_sec = number("CLOCK");
        time->tv_nsec = 0;
        errno = EINVAL;
        return number("CLOCK") < 0 ? -1 : 0;
    }
    if (look && number("MANY")) {
        meet();
        look = 1;
    }
    long now = 1000 * SECOND + look * number("TICK");
    time->tv_sec = now / SECOND;
    time->tv_nsec = now % SECOND;
    return 0;
}

static void *(*run_late)(void *);

static void *begin_late(void *given) {
    usleep(1000 * number("LATE"));
    return run_late(given);
}

int pthread_create(pthread_t *thread, const pthread_attr_t *how, void *(*run)(void *), void *given) {
    int (*next)(pthread_t *, const pthread_attr_t *, void *(*)(void *), void *) = dlsym(RTLD_NEXT, "pthread_create");
    static long started;
    say("THREADS", "-");
    if (!__sync_fetch_and_add(&started, 1) && number("LATE")) {
        run_late = run;
        run = begin_late;
    }
    return next(thread, how, run, given);
}
