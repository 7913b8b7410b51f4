/* ways PUBLIC MESSAGE SIGNATURE [head|none]: verifies in all ways of calling, in pieces and blocks
 * of 1, 55 and 64 bytes and of the whole, with empty ones between them. Prints the verdict, or says
 * which way differs from lms_verify. Ends with 6 where key and signature have a head and the last
 * argument is `none`, or have none and it is `head`. It is C as well as C++. */
#include "lms.h"
#include "sha256.h"
#include <stdio.h>
#include <stdlib.h>
#include <string.h>

struct text {
    uint8_t *bytes;
    size_t len;
};

/* An empty file is a null pointer. */
static struct text read_file(const char *name) {
    struct text text = {0, 0};
    FILE *file = fopen(name, "rb");
    for (size_t got = 1; file && got > 0; text.len += got) {
        uint8_t *bytes = (uint8_t *)realloc(text.bytes, text.len + 4096);
        if (!bytes) exit(2);
        text.bytes = bytes;
        got = fread(bytes + text.len, 1, 4096, file);
    }
    if (!file || ferror(file)) exit(2);
    fclose(file);
    if (text.len == 0) {
        free(text.bytes);
        text.bytes = 0;
    }
    return text;
}

static bool by_pieces(struct text key, struct text message, struct text signature, size_t size) {
    static const uint8_t nothing = 0;
    size_t count = 0;
    struct lms_piece *pieces = (struct lms_piece *)malloc((2 * message.len + 2) * sizeof *pieces);
    if (!pieces) exit(2);
    for (size_t at = 0; at < message.len; at += size) {
        struct lms_piece empty = {&nothing, 0};
        struct lms_piece piece = {message.bytes + at, message.len - at < size ? message.len - at : size};
        pieces[count++] = empty;
        pieces[count++] = piece;
    }
    bool valid = lms_verify_pieces(key.bytes, key.len, count ? pieces : 0, count, signature.bytes, signature.len);
    free(pieces);
    return valid;
}

/* Where there is no head the hash is of zeros: it must be refused, too. */
static bool by_hash(struct text key, struct text message, struct text signature, size_t size) {
    uint8_t head[LMS_MESSAGE_HEAD_LEN] = {0}, digest[LMS_HASH_LEN];
    bool has_head = lms_message_head(key.bytes, key.len, signature.bytes, signature.len, head);
    for (size_t i = 0; !has_head && i < sizeof head; i++)
        if (head[i]) exit(4);
    struct sha256 hash;
    sha256_begin(&hash);
    sha256_update(&hash, head, sizeof head);
    for (size_t at = 0; at < message.len; at += size)
        sha256_update(&hash, message.bytes + at, message.len - at < size ? message.len - at : size);
    sha256_finish(&hash, digest);
    bool valid = lms_verify_hash(key.bytes, key.len, signature.bytes, signature.len, digest);
    if (valid && !has_head) exit(5);
    return valid;
}

int main(int argc, char **argv) {
    uint8_t head[LMS_MESSAGE_HEAD_LEN];
    if (argc != 4 && argc != 5) return 2;
    struct text key = read_file(argv[1]), message = read_file(argv[2]), signature = read_file(argv[3]);
    const char *kind = lms_message_head(key.bytes, key.len, signature.bytes, signature.len, head) ? "head" : "none";
    if (argc == 5 && strcmp(argv[4], kind)) return 6;
    bool valid = lms_verify(key.bytes, key.len, message.bytes, message.len, signature.bytes, signature.len);
    size_t sizes[4] = {1, 55, 64, message.len ? message.len : 1};
    for (int i = 0; i < 4; i++) {
        bool pieces = by_pieces(key, message, signature, sizes[i]), hashed = by_hash(key, message, signature, sizes[i]);
        if (pieces != valid || hashed != valid) {
            printf("%zu bytes: whole %d, pieces %d, hash %d\n", sizes[i], valid, pieces, hashed);
            return 3;
        }
    }
    puts(valid ? "valid" : "invalid");
    return !valid;
}
