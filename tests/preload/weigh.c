/* Loaded before a program, counts the bytes that it holds of its allocator, rounded up as the
   allocator does, and adds to the file WEIGHED, after each line that the program prints, how many
   these are and how many they were at most since the line before. */
#define _GNU_SOURCE
#include <dlfcn.h>
#include <malloc.h>
#include <stdio.h>
#include <stdlib.h>
#include <string.h>
#include <sys/syscall.h>
#include <unistd.h>

static long held;
static long most;

static void count(long bytes) {
    long now = __sync_add_and_fetch(&held, bytes);
    long before = most;
    while (now > before && !__sync_bool_compare_and_swap(&most, before, now))
        before = most;
}

static long size_of(void *block) {
    return block ? (long)malloc_usable_size(block) : 0;
}

void *malloc(size_t size) {
    void *(*next)(size_t) = dlsym(RTLD_NEXT, "malloc");
    void *block = next(size);
    count(size_of(block));
    return block;
}

void *realloc(void *block, size_t size) {
    void *(*next)(void *, size_t) = dlsym(RTLD_NEXT, "realloc");
    long old = size_of(block);
    void *grown = next(block, size);
    if (grown)
        count(size_of(grown) - old);
    return grown;
}

void free(void *block) {
    void (*next)(void *) = dlsym(RTLD_NEXT, "free");
    count(-size_of(block));
    next(block);
}

static void say(void) {
    const char *name = getenv("WEIGHED");
    FILE *file = name ? fopen(name, "a") : NULL;
    long now = held;
    long peak = most;
    if (file) {
        fprintf(file, "%ld %ld\n", now, peak);
        fclose(file);
    }
    most = held;
}

ssize_t write(int stream, const void *bytes, size_t count_of_bytes) {
    ssize_t written = syscall(SYS_write, stream, bytes, count_of_bytes);
    if (stream == STDOUT_FILENO && written > 0 && memchr(bytes, '\n', written))
        say();
    return written;
}

ssize_t __write(int, const void *, size_t) __attribute__((alias("write")));
