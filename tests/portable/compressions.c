/* Compressions for LMS_COMPRESS: one in plain C, and two that are none. */
#include "sha256.h"
#include <string.h>

void plain(uint32_t state[8], const uint8_t *blocks, size_t count);
void nothing(uint32_t state[8], const uint8_t *blocks, size_t count);
void one_bit(uint32_t state[8], const uint8_t *blocks, size_t count);

void plain(uint32_t state[8], const uint8_t *blocks, size_t count) {
    struct sha256 hash;
    memcpy(hash.state, state, sizeof hash.state);
    for (; count > 0; count--, blocks += sizeof hash.block) {
        memcpy(hash.block, blocks, sizeof hash.block);
        sha256_compress(&hash);
    }
    memcpy(state, hash.state, sizeof hash.state);
}

void nothing(uint32_t state[8], const uint8_t *blocks, size_t count) {
    (void)state;
    (void)blocks;
    (void)count;
}

void one_bit(uint32_t state[8], const uint8_t *blocks, size_t count) {
    plain(state, blocks, count);
    state[7] ^= 1;
}
