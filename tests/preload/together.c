/* Loaded before a program, has each thread that asks for a block of SIZE bytes wait, the first
   time, until MANY threads have asked for one, or ends the program with 99 after a minute. A byte
   is added to the file CAME for each of these threads. */
#define _GNU_SOURCE
#include <dlfcn.h>
#include <fcntl.h>
#include <stdlib.h>
#include <sys/syscall.h>
#include <unistd.h>

static long number(const char *name) {
    const char *text = getenv(name);
    return text ? atol(text) : 0;
}

static void say_come(void) {
    int file = syscall(SYS_openat, AT_FDCWD, getenv("CAME"), O_WRONLY | O_CREAT | O_APPEND, 0600);
    syscall(SYS_write, file, "-", 1);
    syscall(SYS_close, file);
}

static void meet(void) {
    static long threads;
    static __thread int has_come __attribute__((tls_model("initial-exec")));
    if (has_come) {
        return;
    }
    has_come = 1;
    say_come();
    __sync_add_and_fetch(&threads, 1);
    for (int waits = 0; __sync_add_and_fetch(&threads, 0) < number("MANY"); waits++) {
        if (waits == 60000) {
            _exit(99);
        }
        usleep(1000);
    }
}

void *malloc(size_t size) {
    void *(*next)(size_t) = dlsym(RTLD_NEXT, "malloc");
    if (size == (size_t)number("SIZE")) {
        meet();
    }
    return next(size);
}
