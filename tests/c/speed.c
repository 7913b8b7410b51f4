/* speed SECONDS PUBLIC MESSAGE SIGNATURE: verifies a valid signature again and again, for so many seconds of
 * processor time, and prints how many times a second. */
#define _POSIX_C_SOURCE 199309L
#include "lms.h"
#include <stdio.h>
#include <stdlib.h>
#include <time.h>

static uint8_t texts[3][1 << 17];
static size_t lens[3];

static void stop(const char *why) {
    fprintf(stderr, "speed: %s\n", why);
    exit(2);
}

static double now(void) {
    struct timespec time;
    if (clock_gettime(CLOCK_PROCESS_CPUTIME_ID, &time) != 0) stop("there is no clock");
    return (double)time.tv_sec + (double)time.tv_nsec / 1e9;
}

int main(int argc, char **argv) {
    double count = 0, begun, taken;
    if (argc != 5) stop("usage: speed SECONDS PUBLIC MESSAGE SIGNATURE");
    for (int i = 0; i < 3; i++) {
        FILE *file = fopen(argv[i + 2], "rb");
        if (!file) stop("a file can't be opened");
        lens[i] = fread(texts[i], 1, sizeof texts[i], file);
        if (ferror(file) || !feof(file)) stop("a file can't be read, or is too long");
        fclose(file);
    }
    begun = now();
    do {
        if (!lms_verify(texts[0], lens[0], texts[1], lens[1], texts[2], lens[2])) stop("the signature is not valid");
        count++;
        taken = now() - begun;
    } while (taken < atof(argv[1]));
    return printf("%.1f\n", count / taken) < 0 || fflush(stdout) != 0;
}
