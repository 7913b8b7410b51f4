/* What the header's names hand on, over stand-ins for the library's functions: each argument in its
 * place, null as an address where its length is 0, all else as it is. It is C as well as C++. Prints
 * the lengths that the header has, or says which call is handed on wrongly. */
#include "lms.h"
#include <stdio.h>
#include <stdlib.h>

struct given {
    const void *at;
    size_t len;
};

enum call { WHOLE, PIECES, HEAD, HASH };

/* Two bits say of each argument with a length whether it is null, and whether its length is 0. */
static unsigned kinds;
static enum call called;
static bool answer;
static uint8_t head[LMS_MESSAGE_HEAD_LEN], hash[LMS_HASH_LEN];

static void fail(enum call call, const char *what) {
    printf("call %d, of arguments %o: %s\n", (int)call, kinds, what);
    exit(1);
}

/* The public key, the message or its pieces, or the signature, as a caller gives it. */
static struct given argument(unsigned which) {
    static const struct lms_piece things[3] = {{0, 0}, {0, 0}, {0, 0}};
    unsigned kind = kinds >> 2 * which & 3;
    struct given given = {kind & 1 ? 0 : things + which, kind & 2 ? 0 : (size_t)which + 1};
    return given;
}

static const uint8_t *bytes(unsigned which) { return (const uint8_t *)argument(which).at; }

static size_t len(unsigned which) { return argument(which).len; }

/* The call's answer is that of the library's function. */
static void answers(enum call call, bool said) {
    if (called != call) fail(call, "another function is called");
    if (said != answer) fail(call, "another answer is given");
}

/* All calls, by the header's names. */
static void call_all(void) {
    const struct lms_piece *pieces = (const struct lms_piece *)argument(1).at;
    answers(WHOLE, lms_verify(bytes(0), len(0), bytes(1), len(1), bytes(2), len(2)));
    answers(PIECES, lms_verify_pieces(bytes(0), len(0), pieces, len(1), bytes(2), len(2)));
    answers(HEAD, lms_message_head(bytes(0), len(0), bytes(2), len(2), head));
    answers(HASH, lms_verify_hash(bytes(0), len(0), bytes(2), len(2), hash));
}

int main(void) {
    for (kinds = 0; kinds < 64; kinds++) {
        answer = !answer;
        call_all();
    }
    printf("%d %d %d %d\n", LMS_PUBLIC_KEY_LEN, LMS_LONGEST_SIGNATURE_LEN, LMS_MESSAGE_HEAD_LEN, LMS_HASH_LEN);
    return 0;
}

#undef lms_verify
#undef lms_verify_pieces
#undef lms_message_head
#undef lms_verify_hash

/* What the library's function is handed for an argument. */
static void is_handed(unsigned which, const void *at, size_t size) {
    struct given given = argument(which);
    if (size != given.len) fail(called, "another length is handed on");
    if (size == 0 ? at == 0 : at != given.at) fail(called, "another address is handed on");
}

bool lms_verify(const uint8_t *public_key, size_t public_key_len, const uint8_t *message, size_t message_len,
                const uint8_t *signature, size_t signature_len) {
    called = WHOLE;
    is_handed(0, public_key, public_key_len);
    is_handed(1, message, message_len);
    is_handed(2, signature, signature_len);
    return answer;
}

bool lms_verify_pieces(const uint8_t *public_key, size_t public_key_len, const struct lms_piece *pieces,
                       size_t piece_count, const uint8_t *signature, size_t signature_len) {
    called = PIECES;
    is_handed(0, public_key, public_key_len);
    is_handed(1, pieces, piece_count);
    is_handed(2, signature, signature_len);
    return answer;
}

bool lms_message_head(const uint8_t *public_key, size_t public_key_len, const uint8_t *signature,
                      size_t signature_len, uint8_t place[LMS_MESSAGE_HEAD_LEN]) {
    called = HEAD;
    is_handed(0, public_key, public_key_len);
    is_handed(2, signature, signature_len);
    if (place != head) fail(called, "the head is to go elsewhere");
    return answer;
}

bool lms_verify_hash(const uint8_t *public_key, size_t public_key_len, const uint8_t *signature,
                     size_t signature_len, const uint8_t of[LMS_HASH_LEN]) {
    called = HASH;
    is_handed(0, public_key, public_key_len);
    is_handed(2, signature, signature_len);
    if (of != hash) fail(called, "another hash is handed on");
    return answer;
}
