/* Prints what the examples of docs/C.md, documented.h, say of the vectors and changes of vectors.h: the
 * verdict, and whether the message is signed by the hash of an engine, whose driver is here. */
#include "judge.h"

static struct sha256 engine;
static struct bytes left;

static void engine_begin(void) {
    sha256_begin(&engine);
}

static void engine_update(const uint8_t *bytes, size_t len) {
    sha256_update(&engine, bytes, len);
}

static void engine_finish(uint8_t *hash) {
    sha256_finish(&engine, hash);
}

static size_t next_block(const uint8_t **block) {
    size_t len = left.len < 50 ? left.len : 50;
    *block = left.at;
    if (len > 0) left.at += len;
    left.len -= len;
    return len;
}

#include "documented.h"

static void say_documented(const char *name, struct bytes key, struct bytes message,
                           struct bytes signature) {
    enum verdict verdict = verdict_of(key.at, key.len, message.at, message.len, signature.at, signature.len);
    left = message;
    say(name);
    say(verdict == VALID ? " valid" : verdict == MALFORMED ? " malformed" : " not valid");
    say(is_signed(key.at, key.len, signature.at, signature.len) ? ", signed\n" : ", not signed\n");
}

#define judge say_documented
#include "judge.c"
