/* verify PUBLIC MESSAGE SIGNATURE prints `valid` or `invalid`. The message is read in blocks, so it
 * may be larger than memory: SHA-256 takes the head of this key and signature, then the blocks, and
 * the library judges by the hash. */
#include "lms.h"
#include "sha256.h"
#include <err.h>
#include <stdio.h>

static uint8_t public_key[LMS_PUBLIC_KEY_LEN + 1], signature[LMS_LONGEST_SIGNATURE_LEN + 1], block[4096];

/* Of a longer file only `capacity` bytes are kept; cut off, it is neither a key nor a signature. */
static size_t read_file(const char *name, uint8_t *bytes, size_t capacity) {
    FILE *file = fopen(name, "rb");
    size_t len = file ? fread(bytes, 1, capacity, file) : 0;
    if (!file || ferror(file)) err(2, "%s", name);
    fclose(file);
    return len;
}

static void hash_message(const uint8_t *head, const char *name, uint8_t digest[LMS_HASH_LEN]) {
    struct sha256 hash;
    sha256_begin(&hash);
    sha256_update(&hash, head, LMS_MESSAGE_HEAD_LEN);
    FILE *file = fopen(name, "rb");
    for (size_t len; file && (len = fread(block, 1, sizeof block, file)) > 0;) sha256_update(&hash, block, len);
    if (!file || ferror(file)) err(2, "%s", name);
    fclose(file);
    sha256_finish(&hash, digest);
}

int main(int argc, char **argv) {
    uint8_t head[LMS_MESSAGE_HEAD_LEN], digest[LMS_HASH_LEN];
    if (argc != 4) errx(2, "usage: verify PUBLIC MESSAGE SIGNATURE");
    size_t key_len = read_file(argv[1], public_key, sizeof public_key);
    size_t signature_len = read_file(argv[3], signature, sizeof signature);
    bool valid = lms_message_head(public_key, key_len, signature, signature_len, head);
    if (valid) hash_message(head, argv[2], digest);
    valid = valid && lms_verify_hash(public_key, key_len, signature, signature_len, digest);
    if (puts(valid ? "valid" : "invalid") < 0 || fflush(stdout) != 0) err(2, "standard output");
    return !valid;
}
