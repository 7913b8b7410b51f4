/* Loaded before a program, counts its operations on files and streams, from 1 on. That of the
   number STOP kills it: before it is done, or, where it writes, once half of the bytes are written.
   Those of the numbers from FAIL to LAST fail, with the error FAULT, or EIO: undone, but for half of
   a write, or, where LATE is set, done all the same. Where BELOW is set, those alone fail whose path
   has it, or has LINK, as of a medium that was pulled out. Where there is an operation of the number STOP
   or FAIL, the file MET is made. What a program looks up of its machine in /sys is not there, and no
   operation, since only some machines have it: so the program sees no quota of processors.

   Where STEPS is set, that file gets a line for each operation, before it is done: what it does, and
   the file's name. Where SHORT is set, a read or a write moves at most so many bytes, and where TAKE
   is set, a read of standard input. Where SIZE is set, the file NAME is reported to have so many
   bytes. */
#define _GNU_SOURCE
#include <dlfcn.h>
#include <errno.h>
#include <fcntl.h>
#include <signal.h>
#include <stdarg.h>
#include <stdio.h>
#include <stdlib.h>
#include <string.h>
#include <sys/stat.h>
#include <sys/syscall.h>
#include <unistd.h>

static long number(const char *name) {
    const char *text = getenv(name);
    return text ? atol(text) : 0;
}

static void say_met(void) {
    const char *name = getenv("MET");
    if (name) {
        syscall(SYS_mknodat, AT_FDCWD, name, S_IFREG | 0600, 0);
    }
}

/* The names by which files were opened last, by their numbers. */
static char *opened[1024] = {"standard input", "standard output", "standard error"};

static const char *name_of(int file) {
    return file >= 0 && file < 1024 && opened[file] ? opened[file] : "?";
}

/* Notes the name of a file that was opened. */
static int named(int file, const char *path) {
    if (file >= 0 && file < 1024) {
        opened[file] = strdup(path);
    }
    return file;
}

static void say_step(const char *what, const char *path) {
    const char *name = getenv("STEPS");
    char line[3 * 4096];
    if (name) {
        int file = syscall(SYS_openat, AT_FDCWD, name, O_WRONLY | O_CREAT | O_APPEND, 0600);
        int length = snprintf(line, sizeof line, "%s %s\n", what, path);
        if (length >= (int)sizeof line || syscall(SYS_write, file, line, length) != length) {
            abort();
        }
        syscall(SYS_close, file);
    }
}

/* Whether an operation on this path may fail. */
static int may_fail(const char *path) {
    const char *below = getenv("BELOW"), *link = getenv("LINK");
    return !below || strstr(path, below) || (link && strstr(path, link));
}

/* Counts an operation, of which so much may be done before the program is killed, and says whether
   it fails. */
static int fails(const char *what, const char *path, void (*half)(const void *), const void *given) {
    static long operations;
    long at = __sync_add_and_fetch(&operations, 1);
    say_step(what, path);
    if (at == number("STOP") || at == number("FAIL")) {
        say_met();
    }
    if (at == number("STOP")) {
        if (half) {
            half(given);
        }
        kill(getpid(), SIGKILL);
    }
    return number("FAIL") > 0 && number("FAIL") <= at && at <= number("LAST") && may_fail(path);
}

/* What an operation answers that was done, or fails all the same. */
static long reported(int is_failed, long answer) {
    if (is_failed) {
        errno = number("FAULT") ? number("FAULT") : EIO;
        return -1;
    }
    return answer;
}

/* How many bytes of these a read or a write may move, by a setting. */
static size_t moved(size_t count, const char *setting) {
    size_t most = number(setting);
    return most && most < count ? most : count;
}

#define ANSWER(what, path, call)                       \
    do {                                               \
        int is_failed = fails(what, path, NULL, NULL); \
        if (is_failed && !number("LATE")) {            \
            return reported(1, 0);                     \
        }                                              \
        return reported(is_failed, (call));            \
    } while (0)

int open(const char *path, int flags, ...) {
    int (*next)(const char *, int, ...) = dlsym(RTLD_NEXT, "open");
    int mode = 0;
    if ((flags & O_CREAT) || (flags & O_TMPFILE) == O_TMPFILE) {
        va_list rest;
        va_start(rest, flags);
        mode = va_arg(rest, int);
        va_end(rest);
    }
    if (!strncmp(path, "/sys/", 5)) {
        errno = ENOENT;
        return -1;
    }
    const char *what = !(flags & O_CREAT) ? "open" : flags & O_EXCL ? "make" : flags & O_TRUNC ? "empty" : "open to write";
    ANSWER(what, path, named(next(path, flags, mode), path));
}

ssize_t read(int file, void *bytes, size_t count) {
    ssize_t (*next)(int, void *, size_t) = dlsym(RTLD_NEXT, "read");
    count = moved(moved(count, "SHORT"), file ? "SHORT" : "TAKE");
    ANSWER("read", name_of(file), next(file, bytes, count));
}

struct text {
    int file;
    const void *bytes;
    size_t count;
};

static ssize_t write_first(const struct text *text, size_t count) {
    ssize_t (*next)(int, const void *, size_t) = dlsym(RTLD_NEXT, "write");
    return next(text->file, text->bytes, count);
}

static void write_half(const void *given) {
    const struct text *text = given;
    write_first(text, text->count / 2);
}

ssize_t write(int file, const void *bytes, size_t count) {
    struct text text = {file, bytes, moved(count, "SHORT")};
    int is_failed = fails("write", name_of(file), write_half, &text);
    return reported(is_failed, write_first(&text, is_failed && !number("LATE") ? text.count / 2 : text.count));
}

/* Has the file NAME be of SIZE bytes. */
static int sized(int answer, const char *name, struct statx *found) {
    const char *wanted = getenv("NAME");
    if (!answer && wanted && !strcmp(name, wanted)) {
        found->stx_size = number("SIZE");
    }
    return answer;
}

int statx(int folder, const char *restrict path, int flags, unsigned mask, struct statx *restrict found) {
    int (*next)(int, const char *, int, unsigned, struct statx *) = dlsym(RTLD_NEXT, "statx");
    const char *name = *path ? path : name_of(folder);
    ANSWER("look up", name, sized(next(folder, path, flags, mask, found), name, found));
}

int fsync(int file) {
    int (*next)(int) = dlsym(RTLD_NEXT, "fsync");
    ANSWER("flush", name_of(file), next(file));
}

int flock(int file, int operation) {
    int (*next)(int, int) = dlsym(RTLD_NEXT, "flock");
    ANSWER("lock", name_of(file), next(file, operation));
}

char *realpath(const char *restrict path, char *restrict found) {
    char *(*next)(const char *, char *) = dlsym(RTLD_NEXT, "realpath");
    int is_failed = fails("resolve", path, NULL, NULL);
    char *answer = is_failed && !number("LATE") ? NULL : next(path, found);
    return is_failed ? (reported(1, 0), NULL) : answer;
}

ssize_t readlink(const char *restrict path, char *restrict text, size_t size) {
    ssize_t (*next)(const char *, char *, size_t) = dlsym(RTLD_NEXT, "readlink");
    ANSWER("follow", path, next(path, text, size));
}

int fchmod(int file, mode_t mode) {
    int (*next)(int, mode_t) = dlsym(RTLD_NEXT, "fchmod");
    ANSWER("permit", name_of(file), next(file, mode));
}

int ftruncate(int file, off_t length) {
    int (*next)(int, off_t) = dlsym(RTLD_NEXT, "ftruncate");
    ANSWER("cut", name_of(file), next(file, length));
}

int symlink(const char *target, const char *path) {
    int (*next)(const char *, const char *) = dlsym(RTLD_NEXT, "symlink");
    char both[2 * 4096];
    snprintf(both, sizeof both, "%s to %s", path, target);
    ANSWER("link", both, next(target, path));
}

int rename(const char *from, const char *to) {
    int (*next)(const char *, const char *) = dlsym(RTLD_NEXT, "rename");
    char both[2 * 4096];
    snprintf(both, sizeof both, "%s to %s", from, to);
    ANSWER("rename", both, next(from, to));
}

int unlink(const char *path) {
    int (*next)(const char *) = dlsym(RTLD_NEXT, "unlink");
    ANSWER("remove", path, next(path));
}
