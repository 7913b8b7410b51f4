/* One key, message and signature by all four calls. */
#ifndef JUDGE_H
#define JUDGE_H

#include "lms.h"
#include "platform.h"
#include "sha256.h"

/* The portable file takes null wherever there are no bytes, in a piece, too. */
#ifdef LMS_PORTABLE
#define NO_BYTES 0
#else
static const uint8_t nothing = 0;
#define NO_BYTES &nothing
#endif

struct bytes {
    const uint8_t *at;
    size_t len;
};

/* A public key, a message and a signature. */
struct vector {
    const char *name;
    struct bytes parts[3];
};

static void say_number(size_t number) {
    char text[24];
    size_t k = sizeof text - 1;
    text[k] = 0;
    do text[--k] = (char)('0' + number % 10);
    while ((number /= 10) > 0);
    say(text + k);
}

static void say_bytes(const uint8_t *bytes, size_t len) {
    static const char digits[] = "0123456789abcdef";
    for (size_t k = 0; k < len; k++) {
        char text[3] = {digits[bytes[k] >> 4], digits[bytes[k] & 15], 0};
        say(text);
    }
}

static bool by_pieces(struct bytes key, struct bytes message, struct bytes signature) {
    static const size_t sizes[5] = {1, 55, 0, 64, SIZE_MAX};
    struct lms_piece pieces[5];
    size_t at = 0;
    for (size_t k = 0; k < 5; k++) {
        size_t left = message.len - at, size = left < sizes[k] ? left : sizes[k];
        pieces[k].bytes = size ? message.at + at : NO_BYTES;
        pieces[k].len = size;
        at += size;
    }
    return lms_verify_pieces(key.at, key.len, pieces, 5, signature.at, signature.len);
}

/* The head, and the hash of head and message. Where there is no head they are of other bytes. */
static bool make_head(struct bytes key, struct bytes message, struct bytes signature,
                      uint8_t *head, uint8_t *digest) {
    struct sha256 hash;
    for (size_t k = 0; k < LMS_MESSAGE_HEAD_LEN; k++) head[k] = 0x5a;
    bool has_head = lms_message_head(key.at, key.len, signature.at, signature.len, head);
    for (size_t k = 0; !has_head && k < LMS_MESSAGE_HEAD_LEN; k++)
        if (head[k] != 0x5a) say("a head was written, and the answer is false\n");
    sha256_begin(&hash);
    sha256_update(&hash, head, LMS_MESSAGE_HEAD_LEN);
    sha256_update(&hash, message.at, message.len);
    sha256_finish(&hash, digest);
    return has_head;
}

/* Prints the answers whole, in pieces, on a head and by a hash, and the hash if there is a head. */
static void judge(const char *name, struct bytes key, struct bytes message,
                  struct bytes signature) {
    uint8_t head[LMS_MESSAGE_HEAD_LEN], digest[LMS_HASH_LEN];
    bool whole = lms_verify(key.at, key.len, message.at, message.len, signature.at, signature.len);
    bool pieces = by_pieces(key, message, signature);
    bool has_head = make_head(key, message, signature, head, digest);
    bool hash = lms_verify_hash(key.at, key.len, signature.at, signature.len, digest);
    say(name);
    say(whole ? " 1" : " 0");
    say(pieces ? "1" : "0");
    say(has_head ? "1" : "0");
    say(hash ? "1 " : "0 ");
    if (has_head) say_bytes(digest, sizeof digest);
    say("\n");
}

#endif
