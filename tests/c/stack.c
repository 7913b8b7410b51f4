/* stack PUBLIC MESSAGE SIGNATURE [PUBLIC MESSAGE SIGNATURE]..: runs each call on a painted stack,
 * over valid signatures, and prints how many bytes of it the deepest one wrote over, its return
 * address counted, its caller's left out. */
#include "lms.h"
#include "sha256.h"
#include <stdio.h>
#include <stdlib.h>
#include <string.h>
#include <ucontext.h>

/* The lowest bytes of the painted stack are there to be found written over, before a call writes
   below them. */
enum { PAINT = 0xa5, LOWEST = 1 << 16, AREA = LOWEST + (1 << 18) };

static uint8_t texts[3][1 << 17], head[LMS_MESSAGE_HEAD_LEN], hash[LMS_HASH_LEN];
static size_t lens[3];
static struct lms_piece two[2];
static volatile bool answer;

static bool says_true(void) { return true; }

/* A call as the others, of a function that takes no more stack than its return address. */
static void nothing(void) {
    static bool (*volatile call)(void) = says_true;
    answer = call();
}

static void whole(void) { answer = lms_verify(texts[0], lens[0], texts[1], lens[1], texts[2], lens[2]); }

static void pieces(void) {
    answer = lms_verify_pieces(texts[0], lens[0], two, 2, texts[2], lens[2]);
}

static void make_head(void) { answer = lms_message_head(texts[0], lens[0], texts[2], lens[2], head); }

static void by_hash(void) { answer = lms_verify_hash(texts[0], lens[0], texts[2], lens[2], hash); }

static void stop(const char *why) {
    fprintf(stderr, "stack: %s\n", why);
    exit(2);
}

static size_t used(void (*call)(void)) {
    static uint8_t stack[AREA];
    ucontext_t here, there;
    /* once outside, so that no loader works on the painted stack to find the functions that the
       call asks for */
    call();
    memset(stack, PAINT, sizeof stack);
    if (getcontext(&there) != 0) stop("no context");
    there.uc_stack.ss_sp = stack;
    there.uc_stack.ss_size = sizeof stack;
    there.uc_link = &here;
    makecontext(&there, call, 0);
    answer = false;
    if (swapcontext(&here, &there) != 0) stop("no switch of contexts");
    if (!answer) stop("a call did not answer true");
    size_t left = 0;
    while (left < AREA && stack[left] == PAINT) left++;
    if (left < LOWEST) stop("the painted area is used up: enlarge AREA");
    return AREA - left;
}

static void read_texts(char **names) {
    for (int i = 0; i < 3; i++) {
        FILE *file = fopen(names[i], "rb");
        if (!file) stop("a file can't be opened");
        lens[i] = fread(texts[i], 1, sizeof texts[i], file);
        if (ferror(file) || !feof(file)) stop("a file can't be read, or is too long");
        fclose(file);
    }
}

/* What the calls on a painted stack take. */
static void prepare(void) {
    struct sha256 state;
    struct lms_piece first = {texts[1], lens[1] / 2}, second = {texts[1] + lens[1] / 2, lens[1] - lens[1] / 2};
    two[0] = first;
    two[1] = second;
    make_head();
    sha256_begin(&state);
    sha256_update(&state, head, sizeof head);
    sha256_update(&state, texts[1], lens[1]);
    sha256_finish(&state, hash);
}

int main(int argc, char **argv) {
    void (*calls[4])(void) = {whole, pieces, make_head, by_hash};
    size_t most = 0, base = used(nothing);
    if (argc < 4 || argc % 3 != 1) stop("usage: stack PUBLIC MESSAGE SIGNATURE [PUBLIC MESSAGE SIGNATURE]..");
    for (int at = 1; at < argc; at += 3) {
        read_texts(argv + at);
        prepare();
        for (int i = 0; i < 4; i++) {
            size_t bytes = used(calls[i]);
            if (bytes > most) most = bytes;
        }
    }
    if (printf("%zu\n", most - base + sizeof(void *)) < 0 || fflush(stdout) != 0) stop("the answer can't be written");
    return 0;
}
