/* shared PUBLIC MESSAGE SIGNATURE: calls the symbols of the shared library, not the header's names. Null
 * beside a length of 0 has to be what an address is there, and each of the threads that verify at once has
 * to get its own verdict. Prints where the library is, and the verdict. */
#define _GNU_SOURCE
#include "lms.h"
#include <dlfcn.h>
#include <pthread.h>
#include <stdio.h>
#include <stdlib.h>

#undef lms_verify
#undef lms_verify_pieces
#undef lms_message_head
#undef lms_verify_hash

enum { THREADS = 8, CALLS = 10 };

struct text {
    const uint8_t *bytes;
    size_t len;
};

static struct text texts[3];
static bool is_valid;

static void stop(const char *why) {
    fprintf(stderr, "shared: %s\n", why);
    exit(2);
}

/* Exactly as many bytes as the file has, so that a sanitizer finds a read past them. */
static struct text read_file(const char *name) {
    FILE *file = fopen(name, "rb");
    if (!file || fseek(file, 0, SEEK_END) != 0) stop(name);
    long len = ftell(file);
    uint8_t *bytes = malloc(len > 0 ? (size_t)len : 1);
    rewind(file);
    if (len < 0 || !bytes || fread(bytes, 1, (size_t)len, file) != (size_t)len) stop(name);
    fclose(file);
    struct text text = {bytes, (size_t)len};
    return text;
}

static bool verify(struct text key, struct text message, struct text signature) {
    return lms_verify(key.bytes, key.len, message.bytes, message.len, signature.bytes, signature.len);
}

/* All calls take null for each of the three that has no bytes, and refuse it but as a message. */
static void takes_null(void) {
    const struct text none = {0, 0}, empty = {texts[1].bytes, 0};
    uint8_t head[LMS_MESSAGE_HEAD_LEN] = {0}, hash[LMS_HASH_LEN] = {0};
    bool is_empty_valid = verify(texts[0], empty, texts[2]);
    if (verify(texts[0], none, texts[2]) != is_empty_valid) stop("a message of null has another verdict");
    if (lms_verify_pieces(texts[0].bytes, texts[0].len, 0, 0, texts[2].bytes, texts[2].len) != is_empty_valid)
        stop("no pieces, of null, have another verdict");
    if (verify(none, texts[1], texts[2]) || verify(texts[0], texts[1], none)) stop("null is valid");
    if (lms_verify_pieces(0, 0, 0, 0, 0, 0)) stop("null is valid in pieces");
    if (lms_message_head(0, 0, texts[2].bytes, texts[2].len, head) || lms_message_head(texts[0].bytes, texts[0].len, 0, 0, head))
        stop("null has a head");
    if (lms_verify_hash(0, 0, texts[2].bytes, texts[2].len, hash) || lms_verify_hash(texts[0].bytes, texts[0].len, 0, 0, hash))
        stop("null is valid by its hash");
}

/* Every second thread verifies another message. */
static void *verify_often(void *which) {
    bool is_other = *(const int *)which % 2;
    struct text other = {texts[2].bytes, texts[2].len};
    for (int i = 0; i < CALLS; i++)
        if (verify(texts[0], is_other ? other : texts[1], texts[2]) != (is_valid && !is_other)) return (void *)which;
    return 0;
}

static void verify_at_once(void) {
    pthread_t threads[THREADS];
    int numbers[THREADS];
    for (int i = 0; i < THREADS; i++) {
        numbers[i] = i;
        if (pthread_create(threads + i, 0, verify_often, numbers + i) != 0) stop("a thread can't be started");
    }
    for (int i = 0; i < THREADS; i++) {
        void *wrong;
        if (pthread_join(threads[i], &wrong) != 0 || wrong) stop("a thread has another verdict");
    }
}

int main(int argc, char **argv) {
    Dl_info info;
    if (argc != 4) stop("usage: shared PUBLIC MESSAGE SIGNATURE");
    for (int i = 0; i < 3; i++) texts[i] = read_file(argv[i + 1]);
    is_valid = verify(texts[0], texts[1], texts[2]);
    takes_null();
    verify_at_once();
    if (!dladdr((void *)(uintptr_t)lms_verify, &info)) stop("the library is not found");
    printf("%s\n%s\n", info.dli_fname, is_valid ? "valid" : "invalid");
    for (int i = 0; i < 3; i++) free((void *)(uintptr_t)texts[i].bytes);
    return fflush(stdout) != 0 ? 2 : !is_valid;
}
