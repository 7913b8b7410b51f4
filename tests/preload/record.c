/* Loaded before a program, writes down in the file RECORD what it does to files, folders and
   streams, in the order in which it is done: an operation's name, two numbers and the length of a
   text, in a line, and then that text. Those that fail are not written down, nor are those that
   change nothing, as reads. A call that changes files and is none of these ends the program. */
#define _GNU_SOURCE
#include <dlfcn.h>
#include <errno.h>
#include <fcntl.h>
#include <pthread.h>
#include <stdarg.h>
#include <stdio.h>
#include <stdlib.h>
#include <string.h>
#include <sys/syscall.h>
#include <unistd.h>

static pthread_mutex_t turn = PTHREAD_MUTEX_INITIALIZER;

/* An operation and its line are one step to the other threads. */
static void begin(void) {
    pthread_mutex_lock(&turn);
}

static void put(int record, const void *text, size_t length) {
    if (syscall(SYS_write, record, text, length) != (long)length) {
        abort();
    }
}

/* Writes an operation down. */
static void record_call(const char *name, long first, long second, const void *text, size_t length) {
    static int record = -1;
    char line[100];
    if (record < 0) {
        record = syscall(SYS_openat, AT_FDCWD, getenv("RECORD"), O_WRONLY | O_CREAT | O_APPEND | O_CLOEXEC, 0600);
        /* The program gets the numbers of files that it would get without this one. */
        int high = syscall(SYS_fcntl, record, F_DUPFD_CLOEXEC, 100);
        syscall(SYS_close, record);
        record = high;
    }
    put(record, line, snprintf(line, sizeof line, "%s %ld %ld %zu\n", name, first, second, length));
    put(record, text, length);
}

static long end(long answer) {
    int fault = errno;
    pthread_mutex_unlock(&turn);
    errno = fault;
    return answer;
}

int open(const char *path, int flags, ...) {
    int (*next)(const char *, int, ...) = dlsym(RTLD_NEXT, "open");
    int mode = 0;
    if ((flags & O_CREAT) || (flags & O_TMPFILE) == O_TMPFILE) {
        va_list rest;
        va_start(rest, flags);
        mode = va_arg(rest, int);
        va_end(rest);
    }
    begin();
    int file = next(path, flags, mode);
    if (file >= 0) {
        record_call("open", file, flags, path, strlen(path));
    }
    return end(file);
}

ssize_t write(int file, const void *bytes, size_t count) {
    ssize_t (*next)(int, const void *, size_t) = dlsym(RTLD_NEXT, "write");
    begin();
    ssize_t written = next(file, bytes, count);
    if (written > 0) {
        /* (No stream has a place.) */
        long place = lseek(file, 0, SEEK_CUR);
        record_call("write", file, place < 0 ? -1 : place - written, bytes, written);
    }
    return end(written);
}

int fsync(int file) {
    int (*next)(int) = dlsym(RTLD_NEXT, "fsync");
    begin();
    int answer = next(file);
    if (!answer) {
        record_call("flush", file, 0, "", 0);
    }
    return end(answer);
}

int ftruncate(int file, off_t length) {
    int (*next)(int, off_t) = dlsym(RTLD_NEXT, "ftruncate");
    begin();
    int answer = next(file, length);
    if (!answer) {
        record_call("cut", file, length, "", 0);
    }
    return end(answer);
}

/* Writes a call with two paths down. */
static void record_both(const char *name, const char *first, const char *second) {
    char both[2 * 4096];
    size_t length = snprintf(both, sizeof both, "%s%c%s", first, 0, second);
    record_call(name, 0, 0, both, length);
}

int rename(const char *from, const char *to) {
    int (*next)(const char *, const char *) = dlsym(RTLD_NEXT, "rename");
    begin();
    int answer = next(from, to);
    if (!answer) {
        record_both("rename", from, to);
    }
    return end(answer);
}

int symlink(const char *target, const char *path) {
    int (*next)(const char *, const char *) = dlsym(RTLD_NEXT, "symlink");
    begin();
    int answer = next(target, path);
    if (!answer) {
        record_both("link", target, path);
    }
    return end(answer);
}

int unlink(const char *path) {
    int (*next)(const char *) = dlsym(RTLD_NEXT, "unlink");
    begin();
    int answer = next(path);
    if (!answer) {
        record_call("unlink", 0, 0, path, strlen(path));
    }
    return end(answer);
}

#define UNKNOWN(name)                                       \
    void no_##name(void) __asm__(#name);                    \
    void no_##name(void) {                                  \
        begin();                                            \
        record_call("unknown", 0, 0, #name, strlen(#name)); \
        abort();                                            \
    }

UNKNOWN(open64)
UNKNOWN(openat)
UNKNOWN(openat64)
UNKNOWN(creat)
UNKNOWN(creat64)
UNKNOWN(mkstemp)
UNKNOWN(mkostemp)
UNKNOWN(writev)
UNKNOWN(pwrite)
UNKNOWN(pwrite64)
UNKNOWN(pwritev)
UNKNOWN(truncate)
UNKNOWN(truncate64)
UNKNOWN(ftruncate64)
UNKNOWN(fallocate)
UNKNOWN(posix_fallocate)
UNKNOWN(copy_file_range)
UNKNOWN(sendfile)
UNKNOWN(fdatasync)
UNKNOWN(sync)
UNKNOWN(syncfs)
UNKNOWN(link)
UNKNOWN(linkat)
UNKNOWN(symlinkat)
UNKNOWN(renameat)
UNKNOWN(renameat2)
UNKNOWN(unlinkat)
UNKNOWN(remove)
UNKNOWN(mkdir)
UNKNOWN(mkdirat)
UNKNOWN(rmdir)
UNKNOWN(dup)
UNKNOWN(dup2)
UNKNOWN(dup3)
