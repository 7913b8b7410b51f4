/* Tries the functions of runtime/aarch64/, over the arguments that it is started with. Where AGAIN is
   set it then starts itself with no argument at all. Ends with 1 where something is wrong, and says
   where. The file of arguments is a part of it, so that it can be told of none. */
#include "arguments.c"

#include <errno.h>
#include <stdint.h>
#include <stdio.h>
#include <stdlib.h>
#include <unistd.h>

enum { WIDEST = 16, SIZES = 8, BLOCKS = SIZES * 5, ROOM = 1 << 18, UNTOUCHED = 0xA5 };

#define HOLDS(is_so) holds(is_so, #is_so, __LINE__)

static void holds(bool is_so, const char *what, int line) {
    if (!is_so) {
        fprintf(stderr, "line %d: not so: %s\n", line, what);
        exit(1);
    }
}

static bool has_only(const unsigned char *bytes, size_t length, unsigned char byte) {
    for (size_t at = 0; at < length; at++) {
        if (bytes[at] != byte) {
            return false;
        }
    }
    return true;
}

static bool is_aligned(const void *block, size_t alignment) {
    return (uintptr_t)block % alignment == 0;
}

/* The largest size that may be asked for, which no machine has. */
static size_t too_much(size_t alignment) {
    return ((size_t)1 << 63) - alignment;
}

/* Blocks of each alignment, of no bytes up to some pages, that are there at once: nobody's bytes are
   another one's, and each has an address of its own. */
static void tries_blocks(void) {
    static const size_t sizes[SIZES] = {0, 0, 1, 2, 3, 7, 1000, 20000};
    static unsigned char *blocks[BLOCKS];
    size_t count = 0;
    for (size_t alignment = 1; alignment <= WIDEST; alignment *= 2) {
        for (size_t at = 0; at < SIZES; at++) {
            struct tried tried = rattle_alloc(sizes[at] * alignment, alignment);
            HOLDS(tried.ok && tried.block != NULL && is_aligned(tried.block, alignment));
            memset(tried.block, (int)count, sizes[at] * alignment);
            blocks[count++] = tried.block;
        }
    }
    for (size_t at = 0; at < count; at++) {
        size_t alignment = (size_t)1 << at / SIZES;
        HOLDS(has_only(blocks[at], sizes[at % SIZES] * alignment, (unsigned char)at));
        for (size_t other = 0; other < at; other++) {
            HOLDS(blocks[at] != blocks[other]);
        }
    }
    for (size_t at = 0; at < count; at++) {
        rattle_dealloc(blocks[at]);
    }
}

/* A block becomes one of this size: as many of its bytes stay as both have. */
static unsigned char *resized(unsigned char *block, size_t old, size_t size, size_t alignment) {
    size_t kept = old < size ? old : size;
    struct tried tried = rattle_realloc(block, kept, size, alignment);
    HOLDS(tried.ok && tried.block != NULL && is_aligned(tried.block, alignment));
    HOLDS(has_only(tried.block, kept, UNTOUCHED));
    memset(tried.block, UNTOUCHED, size);
    return tried.block;
}

/* A block grows and shrinks, to no bytes, too, and where that is refused it stays as it was. */
static void tries_other_sizes(void) {
    static const size_t sizes[] = {0, 1, 0, 0, 3, 1000, 7, 300000, 20, 0};
    for (size_t alignment = 1; alignment <= WIDEST; alignment *= 2) {
        struct tried tried = rattle_alloc(0, alignment);
        HOLDS(tried.ok);
        unsigned char *block = tried.block;
        for (size_t at = 1; at < sizeof sizes / sizeof *sizes; at++) {
            block = resized(block, sizes[at - 1] * alignment, sizes[at] * alignment, alignment);
            tried = rattle_realloc(block, sizes[at] * alignment, too_much(alignment), alignment);
            HOLDS(!tried.ok && tried.block != NULL);
            HOLDS(has_only(block, sizes[at] * alignment, UNTOUCHED));
        }
        rattle_dealloc(block);
    }
}

static void tries_refusals(void) {
    for (size_t alignment = 1; alignment <= WIDEST; alignment *= 2) {
        struct tried tried = rattle_alloc(too_much(alignment), alignment);
        HOLDS(!tried.ok && tried.block != NULL);
    }
}

static void tries_errors(void) {
    rattle_set_errno(ERANGE);
    HOLDS(errno == ERANGE && rattle_errno() == ERANGE);
    HOLDS(close(-1) == -1 && rattle_errno() == EBADF);
    rattle_set_errno(0);
    HOLDS(errno == 0 && rattle_errno() == 0);
}

/* An argument is copied to this much room: whole, with no end after it, or as much as there is room. */
static void is_copied(size_t index, const char *word, size_t room) {
    static unsigned char buffer[ROOM];
    size_t length = strlen(word), most = length < room ? length : room;
    HOLDS(room < ROOM);
    memset(buffer, UNTOUCHED, sizeof buffer);
    HOLDS(rattle_arg(index, buffer, room) == (length <= room ? (ptrdiff_t)length : -2));
    HOLDS(memcmp(buffer, word, most) == 0);
    HOLDS(has_only(buffer + most, sizeof buffer - most, UNTOUCHED));
}

static void is_missing(size_t index) {
    unsigned char buffer[WIDEST];
    memset(buffer, UNTOUCHED, sizeof buffer);
    HOLDS(rattle_arg(index, buffer, sizeof buffer) == -1);
    HOLDS(has_only(buffer, sizeof buffer, UNTOUCHED));
}

/* There are these arguments, and no more. */
static void has_arguments(size_t given, char **words) {
    for (size_t index = 0; index < given; index++) {
        size_t length = strlen(words[index]);
        is_copied(index, words[index], 0);
        is_copied(index, words[index], length / 2);
        is_copied(index, words[index], length - (length != 0));
        is_copied(index, words[index], length);
        is_copied(index, words[index], length + 1);
    }
    is_missing(given);
    is_missing(given + 1);
    is_missing(SIZE_MAX);
}

int main(int given, char **words) {
    char *none[] = {NULL};
    tries_blocks();
    tries_other_sizes();
    tries_refusals();
    tries_errors();
    has_arguments((size_t)given, words);
    if (getenv("AGAIN")) {
        execve("/proc/self/exe", none, none);
        HOLDS(!"started again");
    }
    note_arguments(0, none);
    has_arguments(0, none);
    printf("%d arguments\n", given);
    return 0;
}
