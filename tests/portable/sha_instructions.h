/* The SHA instructions of x86-64 in plain C, by what Intel's manual says of them, for processors and emulators
 * that have none. */
#include <immintrin.h>
#include <stdint.h>

static inline uint32_t turned(uint32_t value, int places) { return value >> places | value << (32 - places); }

union four {
    __m128i vector;
    uint32_t words[4];
};

/* Two rounds. The first has c, d, g, h and the second a, b, e, f from its highest word on. */
static inline __m128i two_rounds(__m128i first, __m128i second, __m128i sums) {
    union four one = {first}, two = {second}, sum = {sums}, next;
    uint32_t a = two.words[3], b = two.words[2], c = one.words[3], d = one.words[2];
    uint32_t e = two.words[1], f = two.words[0], g = one.words[1], h = one.words[0];
    for (int i = 0; i < 2; i++) {
        uint32_t t = h + ((e & f) ^ (~e & g)) + (turned(e, 6) ^ turned(e, 11) ^ turned(e, 25)) + sum.words[i];
        uint32_t u = ((a & b) ^ (a & c) ^ (b & c)) + (turned(a, 2) ^ turned(a, 13) ^ turned(a, 22));
        h = g, g = f, f = e, e = d + t, d = c, c = b, b = a, a = t + u;
    }
    next.words[3] = a, next.words[2] = b, next.words[1] = e, next.words[0] = f;
    return next.vector;
}

static inline __m128i first_of_message(__m128i first, __m128i second) {
    union four one = {first}, two = {second}, next;
    for (int i = 0; i < 4; i++) {
        uint32_t word = i < 3 ? one.words[i + 1] : two.words[0];
        next.words[i] = one.words[i] + (turned(word, 7) ^ turned(word, 18) ^ word >> 3);
    }
    return next.vector;
}

static inline __m128i second_of_message(__m128i first, __m128i second) {
    union four one = {first}, two = {second}, next;
    for (int i = 0; i < 4; i++) {
        uint32_t word = i < 2 ? two.words[i + 2] : next.words[i - 2];
        next.words[i] = one.words[i] + (turned(word, 17) ^ turned(word, 19) ^ word >> 10);
    }
    return next.vector;
}

#define _mm_sha256rnds2_epu32 two_rounds
#define _mm_sha256msg1_epu32 first_of_message
#define _mm_sha256msg2_epu32 second_of_message
