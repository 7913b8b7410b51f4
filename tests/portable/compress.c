/* compress COUNT: compares the compression that LMS_COMPRESS names with the proved one of lms_verify.c, which
 * it includes, over so many random blocks and states, and prints whether they are one and what
 * lms_compress_check() says. */
#include "lms_verify.c"
#include <stdio.h>
#include <stdlib.h>

/* Marsaglia's xorshift. */
static uint32_t next(void) {
    static uint32_t value = 2463534242u;
    value ^= value << 13;
    value ^= value >> 17;
    return value ^= value << 5;
}

static bool is_one(void) {
    struct machine m;
    uint64_t one, other, block;
    unsigned k;
    bool is_same = true;
    clear(&m);
    one = m.stack_pointer -= 128;
    other = one + 32;
    block = one + 64;
    for (k = 0; k < 8; k++) {
        uint32_t word = next();
        i32_store(&m, one, 4 * k, word);
        i32_store(&m, other, 4 * k, word);
    }
    for (k = 0; k < 16; k++) i32_store(&m, block, 4 * k, next());
    PROVED_COMPRESS(&m, one, block);
    COMPRESS(&m, other, block);
    for (k = 0; k < 8; k++) is_same &= i32_load(&m, one, 4 * k) == i32_load(&m, other, 4 * k);
    return is_same && !m.trapped;
}

int main(int argc, char **argv) {
    long left = argc == 2 ? atol(argv[1]) : 0;
    bool are_one = left > 0;
    for (; left > 0; left--) are_one &= is_one();
    return printf("%s %s\n", are_one ? "one" : "differ", lms_compress_check() ? "checked" : "refused") < 0;
}
