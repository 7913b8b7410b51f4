/* Runs functions of the portable file: functions < CASES, which are those of functions.mjs, and
 * prints the same. machine.c is the file with a stack of all addresses below its end, so that
 * numbers mean the same addresses here and there; calls.h has call_function. */
#define _DEFAULT_SOURCE
#include "machine.c"
#include "sha256.h"
#include "calls.h"
#include <inttypes.h>
#include <stdio.h>
#include <stdlib.h>
#include <string.h>
#include <sys/time.h>

enum { MOST_ARGUMENTS = 8 };

/* A call that has taken a processor for so many seconds has no end, and ends the program. */
static const struct itimerval most = {{0, 0}, {30, 0}};

static struct machine machine;

/* What a load of pieces could find. No address of a case leads there but by passing 2^64, which no
 * address of WebAssembly does. */
static const uint8_t byte;
static const struct lms_piece piece = {&byte, sizeof byte};

static void fail(const char *why) {
    fprintf(stderr, "functions: %s\n", why);
    exit(2);
}

/* The next number of a line. */
static uint64_t next(char **at) {
    char *end;
    uint64_t value = strtoull(*at, &end, 10);
    if (end == *at) fail("a line is no case");
    *at = end;
    return value;
}

static void fill_memory(uint32_t seed, size_t low) {
    for (size_t at = low; at < STACK_END; at += 4) {
        seed ^= seed << 13;
        seed ^= seed >> 17;
        seed ^= seed << 5;
        for (size_t k = 0; k < 4; k++) machine.stack[at + k] = (uint8_t)(seed >> 8 * k);
    }
}

/* Puts the bytes of a line's end to their addresses. */
static void put_bytes(char *at) {
    while (*at == ' ') {
        size_t to = (size_t)next(&at);
        for (at++; *at && *at != ' '; at += 2) {
            char digits[3] = {at[0], at[1], 0};
            if (to >= STACK_END) fail("an address is not in the stack");
            machine.stack[to++] = (uint8_t)strtoul(digits, 0, 16);
        }
    }
}

static void print_state(uint64_t answer, size_t low) {
    struct sha256 hash;
    uint8_t digest[32];
    sha256_begin(&hash);
    sha256_update(&hash, machine.stack + low, STACK_END - low);
    sha256_finish(&hash, digest);
    printf("%" PRIu64 " %" PRIu64 " %" PRIu32 " ", answer, machine.stack_pointer, machine.in_call);
    for (size_t k = 0; k < sizeof digest; k++) printf("%02x", digest[k]);
    puts("");
}

static void run(char *line) {
    uint64_t arguments[MOST_ARGUMENTS] = {0};
    unsigned function = (unsigned)next(&line);
    machine.stack_pointer = next(&line);
    machine.in_call = (uint32_t)next(&line);
    machine.pieces = &piece;
    machine.piece_count = 1;
    uint32_t seed = (uint32_t)next(&line);
    size_t low = (size_t)next(&line), count = (size_t)next(&line);
    fill_memory(seed, low);
    for (size_t k = 0; k < count && k < MOST_ARGUMENTS; k++) {
        next(&line);
        line++;
        arguments[k] = next(&line);
    }
    put_bytes(line);
    machine.trapped = false;
    if (setitimer(ITIMER_VIRTUAL, &most, 0) != 0) fail("no timer");
    uint64_t answer = call_function(&machine, function, arguments);
    if (machine.trapped) puts("trap");
    else print_state(answer, low);
}

int main(void) {
    static char line[1 << 18];
    while (fgets(line, sizeof line, stdin)) {
        line[strcspn(line, "\n")] = 0;
        run(line);
    }
    return ferror(stdin) || fflush(stdout) != 0;
}
