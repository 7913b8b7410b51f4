/* Loaded before a program, refuses its request for memory of the number REFUSE, counted from 1, and
   says in the file REQUESTS how many it made. */
#define _GNU_SOURCE
#include <dlfcn.h>
#include <stdio.h>
#include <stdlib.h>
#include <sys/syscall.h>
#include <unistd.h>

static long requests;
static int has_ended;

static int is_refused(void) {
    const char *refused = getenv("REFUSE");
    long number = __sync_add_and_fetch(&requests, 1);
    return !has_ended && refused && number == atol(refused);
}

void *malloc(size_t size) {
    void *(*next)(size_t) = dlsym(RTLD_NEXT, "malloc");
    return is_refused() ? NULL : next(size);
}

void *realloc(void *block, size_t size) {
    void *(*next)(void *, size_t) = dlsym(RTLD_NEXT, "realloc");
    return is_refused() ? NULL : next(block, size);
}

/* Says how many requests were made, where a program returns from `main`. */
__attribute__((destructor)) static void say(void) {
    const char *name = getenv("REQUESTS");
    long made = requests;
    has_ended = 1;
    FILE *file = name ? fopen(name, "w") : NULL;
    if (file) {
        fprintf(file, "%ld\n", made);
        fclose(file);
    }
}

/* And where it ends by a call. */
void _exit(int status) {
    say();
    syscall(SYS_exit_group, status);
    __builtin_unreachable();
}
