/* HSS/LMS signature verification (RFC 8554, SHA-256 with 32 bytes) in C99, for processors of 32
 * bits as of 64, of either byte order. Its calls are those of lms.h.
 *
 * GENERATED, do not edit: the functions f<number>_.. below were made by wasm_to_c.py of the
 * WebAssembly module that the toolchain makes of the proved library lms_c. The SHA-256 of that
 * module is
 * e07f57ee4875316cba171130ca14413c1231779d48a58606e4ba99c9ed289819.
 *
 * No heap, no writable data, no recursion, no system calls; of the C library memmove and memset. A
 * call has all that it writes in a struct machine on its own stack, so calls may run at once.
 *
 * The module has addresses of 64 bits, of four kinds:
 * - those of its stack, below STACK_END;
 * - those of its constants, from STACK_END on;
 * - HOST + p: the byte at the C pointer p, so that key, signature, message and hash stay where they
 *   are, also at address 0;
 * - PIECES + 16 i: pointer and length of the caller's piece i, as two numbers of 64 bits.
 *
 * LMS_COMPRESS may name a function of the caller's that compresses blocks of SHA-256, by SHA
 * instructions or an engine. Each call then first compares it with the proved one on a fixed block, and
 * answers false where they differ, but with LMS_COMPRESS_CHECKED, by which the caller promises that
 * lms_compress_check() was true at start.
 *
 * There are three ways to compile:
 * - With nothing defined an access may go to stack and constants within their bounds, and to the
 *   caller's memory to read it.
 * - With LMS_CHECK_CALLER defined, for tests, the caller's memory is bounded, too, by the lengths
 *   that the caller gave, and no sum of an address and an offset may pass 2^64.
 * - With LMS_DIRECT defined nothing is checked, and stack and constants are at HOST + p, too. That
 *   is the smallest and fastest.
 *
 * What fails a check is a trap, and so are an instruction "unreachable" and, with LMS_COMPRESS, a
 * function that differs; the proof says that the others don't come. On the first trap of a call
 * LMS_TRAP() runs, which may be defined to stop the processor. Where it returns, loads that fail
 * give 0, stores that fail do nothing, loops end, and the call answers false. */
#ifndef LMS_PORTABLE
#define LMS_PORTABLE
#endif
#include "lms.h"

/* In U-Boot, and in older Linux, it is a macro that leaves compilers no choice, and the code half as
 * large again. */
#undef inline

#if defined LMS_DIRECT && defined LMS_CHECK_CALLER
#error "LMS_DIRECT checks nothing, LMS_CHECK_CALLER the caller too: define one of them."
#endif

/* Numbers of 32 bits and constants have to be of one unsigned type. */
typedef char an_int_has_32_bits[sizeof(int) == sizeof(uint32_t) ? 1 : -1];
typedef char a_pointer_has_32_bits_or_64[sizeof(uintptr_t) == 4 || sizeof(uintptr_t) == 8 ? 1 : -1];

void *memmove(void *to, const void *from, size_t len);
void *memset(void *to, int byte, size_t len);

#ifndef LMS_TRAP
#define LMS_TRAP() ((void)0)
#endif

/* The bytes of stack that the module takes at most: the sum of the frames of its deepest calls. */
#define STACK_BYTES 3200

/* With LMS_DIRECT it has bytes more: its end has to be a multiple of 16, as the module expects. */
#ifdef LMS_DIRECT
#define STACK_ROOM (STACK_BYTES + 15)
#else
#define STACK_ROOM STACK_BYTES
#endif

/* Where the module's stack ends and its constants begin. */
#define STACK_END 0x100000u
#define CONSTANTS_LEN 416

static const uint8_t constants[CONSTANTS_LEN] = {
    0x98, 0x2f, 0x8a, 0x42, 0x91, 0x44, 0x37, 0x71, 0xcf, 0xfb, 0xc0, 0xb5, 0xa5, 0xdb, 0xb5, 0xe9,
    0x5b, 0xc2, 0x56, 0x39, 0xf1, 0x11, 0xf1, 0x59, 0xa4, 0x82, 0x3f, 0x92, 0xd5, 0x5e, 0x1c, 0xab,
    0x98, 0xaa, 0x07, 0xd8, 0x01, 0x5b, 0x83, 0x12, 0xbe, 0x85, 0x31, 0x24, 0xc3, 0x7d, 0x0c, 0x55,
    0x74, 0x5d, 0xbe, 0x72, 0xfe, 0xb1, 0xde, 0x80, 0xa7, 0x06, 0xdc, 0x9b, 0x74, 0xf1, 0x9b, 0xc1,
    0xc1, 0x69, 0x9b, 0xe4, 0x86, 0x47, 0xbe, 0xef, 0xc6, 0x9d, 0xc1, 0x0f, 0xcc, 0xa1, 0x0c, 0x24,
    0x6f, 0x2c, 0xe9, 0x2d, 0xaa, 0x84, 0x74, 0x4a, 0xdc, 0xa9, 0xb0, 0x5c, 0xda, 0x88, 0xf9, 0x76,
    0x52, 0x51, 0x3e, 0x98, 0x6d, 0xc6, 0x31, 0xa8, 0xc8, 0x27, 0x03, 0xb0, 0xc7, 0x7f, 0x59, 0xbf,
    0xf3, 0x0b, 0xe0, 0xc6, 0x47, 0x91, 0xa7, 0xd5, 0x51, 0x63, 0xca, 0x06, 0x67, 0x29, 0x29, 0x14,
    0x85, 0x0a, 0xb7, 0x27, 0x38, 0x21, 0x1b, 0x2e, 0xfc, 0x6d, 0x2c, 0x4d, 0x13, 0x0d, 0x38, 0x53,
    0x54, 0x73, 0x0a, 0x65, 0xbb, 0x0a, 0x6a, 0x76, 0x2e, 0xc9, 0xc2, 0x81, 0x85, 0x2c, 0x72, 0x92,
    0xa1, 0xe8, 0xbf, 0xa2, 0x4b, 0x66, 0x1a, 0xa8, 0x70, 0x8b, 0x4b, 0xc2, 0xa3, 0x51, 0x6c, 0xc7,
    0x19, 0xe8, 0x92, 0xd1, 0x24, 0x06, 0x99, 0xd6, 0x85, 0x35, 0x0e, 0xf4, 0x70, 0xa0, 0x6a, 0x10,
    0x16, 0xc1, 0xa4, 0x19, 0x08, 0x6c, 0x37, 0x1e, 0x4c, 0x77, 0x48, 0x27, 0xb5, 0xbc, 0xb0, 0x34,
    0xb3, 0x0c, 0x1c, 0x39, 0x4a, 0xaa, 0xd8, 0x4e, 0x4f, 0xca, 0x9c, 0x5b, 0xf3, 0x6f, 0x2e, 0x68,
    0xee, 0x82, 0x8f, 0x74, 0x6f, 0x63, 0xa5, 0x78, 0x14, 0x78, 0xc8, 0x84, 0x08, 0x02, 0xc7, 0x8c,
    0xfa, 0xff, 0xbe, 0x90, 0xeb, 0x6c, 0x50, 0xa4, 0xf7, 0xa3, 0xf9, 0xbe, 0xf2, 0x78, 0x71, 0xc6,
    0x80, 0x00, 0x00, 0x00, 0x00, 0x00, 0x00, 0x00, 0x00, 0x00, 0x00, 0x00, 0x00, 0x00, 0x00, 0x00,
    0x00, 0x00, 0x00, 0x00, 0x00, 0x00, 0x00, 0x00, 0x00, 0x00, 0x00, 0x00, 0x00, 0x00, 0x00, 0x00,
    0x00, 0x00, 0x00, 0x00, 0x00, 0x00, 0x00, 0x00, 0x00, 0x00, 0x00, 0x00, 0x00, 0x00, 0x00, 0x00,
    0x00, 0x00, 0x00, 0x00, 0x00, 0x00, 0x00, 0x00, 0x00, 0x00, 0x00, 0x00, 0x00, 0x00, 0x00, 0x00,
    0x09, 0x01, 0x00, 0x00, 0x00, 0x00, 0x00, 0x00, 0x85, 0x00, 0x00, 0x00, 0x00, 0x00, 0x00, 0x00,
    0x43, 0x00, 0x00, 0x00, 0x00, 0x00, 0x00, 0x00, 0x22, 0x00, 0x00, 0x00, 0x00, 0x00, 0x00, 0x00,
    0x4c, 0x21, 0x00, 0x00, 0x00, 0x00, 0x00, 0x00, 0xcc, 0x10, 0x00, 0x00, 0x00, 0x00, 0x00, 0x00,
    0x8c, 0x08, 0x00, 0x00, 0x00, 0x00, 0x00, 0x00, 0x6c, 0x04, 0x00, 0x00, 0x00, 0x00, 0x00, 0x00,
    0x44, 0x21, 0x00, 0x00, 0x00, 0x00, 0x00, 0x00, 0xc4, 0x10, 0x00, 0x00, 0x00, 0x00, 0x00, 0x00,
    0x84, 0x08, 0x00, 0x00, 0x00, 0x00, 0x00, 0x00, 0x64, 0x04, 0x00, 0x00, 0x00, 0x00, 0x00, 0x00
};

/* Bytes of the caller. */
struct given {
    const uint8_t *bytes;
    size_t len;
};

struct machine {
    uint64_t stack_pointer;
    uint32_t in_call;
    bool trapped;
    const struct lms_piece *pieces;
    size_t piece_count;
#ifdef LMS_CHECK_CALLER
    struct given given[3];
#endif
    uint8_t stack[STACK_ROOM];
};

/* By sizeof, since #if knows no types: UINTPTR_MAX may be missing, or be ~0UL, which is of 64 bits
 * there on each processor. */
#define POINTERS_HAVE_32_BITS (sizeof(uintptr_t) == 4)

/* No pointer gives address 0, which the module takes as none. */
#ifdef LMS_DIRECT
#define HOST ((uint64_t)1 << (POINTERS_HAVE_32_BITS ? 32 : 0))
#else
#define HOST ((uint64_t)1 << 62)
#endif
#define PIECES ((uint64_t)1 << 61)
#define PIECE_LEN 16u

static void trap(struct machine *m) {
    if (m->trapped) return;
    m->trapped = true;
    LMS_TRAP();
}

/* An instruction "unreachable". */
#define UNREACHABLE(answer) do { trap(m); return answer; } while (0)

/* At the head of each loop, so that a call ends after a trap. */
#define LOOP(answer) if (m->trapped) return answer

#ifdef __GNUC__
#define APART __attribute__((__noinline__))
#else
#define APART
#endif

static inline uint64_t address_of(const uint8_t *pointer) {
    return HOST + (uintptr_t)pointer;
}

/* The sum of an address and an offset. */
static inline uint64_t sum(struct machine *m, uint64_t address, uint64_t offset) {
#ifdef LMS_CHECK_CALLER
    if (address > ~(uint64_t)0 - offset) trap(m);
#else
    (void)m;
#endif
    return address + offset;
}

#ifdef LMS_DIRECT

#define CONSTANT(offset) (address_of(constants) + (offset))
#define STACK_TOP(m) (address_of((m)->stack + STACK_ROOM) & ~(uint64_t)15)
#define ACCESS static inline

/* The pointer there. (An inline function would have processors of 32 bits add 64.) */
#define ADDRESS(m, address, offset) ((uintptr_t)((address) + (offset) - HOST))
typedef uintptr_t address_t;

static inline bool readable(struct machine *m, address_t address, uint64_t len,
                            const uint8_t **found) {
    (void)m;
    (void)len;
    *found = (const uint8_t *)address;
    return true;
}

static inline bool writable(struct machine *m, address_t address, uint64_t len, uint8_t **found) {
    (void)m;
    (void)len;
    *found = (uint8_t *)address;
    return true;
}

#else

#define CONSTANT(offset) ((uint64_t)STACK_END + (offset))
#define STACK_TOP(m) ((uint64_t)STACK_END)
#define ACCESS static APART
#define ADDRESS(m, address, offset) sum(m, address, offset)
typedef uint64_t address_t;

static inline uintptr_t pointer_at(uint64_t address) {
    return (uintptr_t)(address - HOST);
}

/* Whether an address may be HOST + p for a pointer p. Of 64 bits these are close to 0 or 2^64. */
static inline bool is_of_host(uint64_t address) {
    if (POINTERS_HAVE_32_BITS) return address >> 32 == HOST >> 32;
    return address - (HOST - ((uint64_t)1 << 60)) < (uint64_t)1 << 61;
}

#ifdef LMS_CHECK_CALLER
static bool is_within(uintptr_t pointer, uint64_t len, const uint8_t *bytes, size_t bytes_len) {
    uintptr_t at = pointer - (uintptr_t)bytes;
    return at <= bytes_len && len <= bytes_len - at;
}
#endif

/* Whether len bytes at the C pointer lie in what the caller gave. */
static inline bool is_given(const struct machine *m, uintptr_t pointer, uint64_t len) {
#ifdef LMS_CHECK_CALLER
    size_t k;
    for (k = 0; k < 3; k++)
        if (is_within(pointer, len, m->given[k].bytes, m->given[k].len)) return true;
    for (k = 0; k < m->piece_count; k++)
        if (is_within(pointer, len, m->pieces[k].bytes, m->pieces[k].len)) return true;
    return false;
#else
    (void)m;
    (void)pointer;
    (void)len;
    return true;
#endif
}

/* Finds len bytes to read; false after a trap. (Null would say nothing: flash may begin there.) */
static inline bool readable(struct machine *m, address_t address, uint64_t len,
                            const uint8_t **found) {
    uint64_t at = address - (STACK_END - STACK_BYTES);
    if (at < STACK_BYTES) {
        *found = m->stack + at;
        if (len <= STACK_BYTES - at) return true;
    } else if (at < STACK_BYTES + CONSTANTS_LEN) {
        *found = constants + (at - STACK_BYTES);
        if (len <= STACK_BYTES + CONSTANTS_LEN - at) return true;
    } else if (is_of_host(address)) {
        *found = (const uint8_t *)pointer_at(address);
        if (is_given(m, pointer_at(address), len)) return true;
    }
    trap(m);
    return false;
}

/* The same to write, which goes to the stack alone. */
static inline bool writable(struct machine *m, address_t address, uint64_t len, uint8_t **found) {
    uint64_t at = address - (STACK_END - STACK_BYTES);
    if (at < STACK_BYTES && len <= STACK_BYTES - at) {
        *found = m->stack + at;
        return true;
    }
    trap(m);
    return false;
}

#endif

ACCESS uint32_t load8(struct machine *m, address_t address) {
    const uint8_t *p;
    return readable(m, address, 1, &p) ? p[0] : 0;
}

ACCESS uint32_t load32(struct machine *m, address_t address) {
    const uint8_t *p;
    if (!readable(m, address, 4, &p)) return 0;
    return p[0] | (uint32_t)p[1] << 8 | (uint32_t)p[2] << 16 | (uint32_t)p[3] << 24;
}

ACCESS uint64_t load64(struct machine *m, address_t address) {
    const uint8_t *p;
    if (!readable(m, address, 8, &p)) return 0;
    return (p[0] | (uint32_t)p[1] << 8 | (uint32_t)p[2] << 16 | (uint32_t)p[3] << 24)
        | (uint64_t)(p[4] | (uint32_t)p[5] << 8 | (uint32_t)p[6] << 16 | (uint32_t)p[7] << 24)
        << 32;
}

ACCESS void store8(struct machine *m, address_t address, uint32_t value) {
    uint8_t *p;
    if (!writable(m, address, 1, &p)) return;
    p[0] = (uint8_t)value;
}

ACCESS void store16(struct machine *m, address_t address, uint32_t value) {
    uint8_t *p;
    if (!writable(m, address, 2, &p)) return;
    p[0] = (uint8_t)value;
    p[1] = (uint8_t)(value >> 8);
}

ACCESS void store32(struct machine *m, address_t address, uint32_t value) {
    uint8_t *p;
    if (!writable(m, address, 4, &p)) return;
    p[0] = (uint8_t)value;
    p[1] = (uint8_t)(value >> 8);
    p[2] = (uint8_t)(value >> 16);
    p[3] = (uint8_t)(value >> 24);
}

ACCESS void store64(struct machine *m, address_t address, uint64_t value) {
    uint8_t *p;
    if (!writable(m, address, 8, &p)) return;
    p[0] = (uint8_t)value;
    p[1] = (uint8_t)(value >> 8);
    p[2] = (uint8_t)(value >> 16);
    p[3] = (uint8_t)(value >> 24);
    p[4] = (uint8_t)(value >> 32);
    p[5] = (uint8_t)(value >> 40);
    p[6] = (uint8_t)(value >> 48);
    p[7] = (uint8_t)(value >> 56);
}

static APART void copy(struct machine *m, address_t to, address_t from, uint64_t len) {
    const uint8_t *source;
    uint8_t *p;
    if (len == 0 || !readable(m, from, len, &source) || !writable(m, to, len, &p)) return;
    memmove(p, source, (size_t)len);
}

static APART void fill(struct machine *m, address_t to, uint32_t value, uint64_t len) {
    uint8_t *p;
    if (len == 0 || !writable(m, to, len, &p)) return;
    memset(p, (int)(value & 0xff), (size_t)len);
}

/* WebAssembly's instructions, by their names. */
#define i32_load8_u(m, address, offset) load8(m, ADDRESS(m, address, offset))
#define i32_load(m, address, offset) load32(m, ADDRESS(m, address, offset))
#define i64_load(m, address, offset) load64(m, ADDRESS(m, address, offset))
#define i32_store8(m, address, offset, value) store8(m, ADDRESS(m, address, offset), value)
#define i32_store16(m, address, offset, value) store16(m, ADDRESS(m, address, offset), value)
#define i32_store(m, address, offset, value) store32(m, ADDRESS(m, address, offset), value)
#define i64_store(m, address, offset, value) store64(m, ADDRESS(m, address, offset), value)
#define memory_copy(m, to, from, len) copy(m, ADDRESS(m, to, 0), ADDRESS(m, from, 0), len)
#define memory_fill(m, to, value, len) fill(m, ADDRESS(m, to, 0), value, len)

/* i64.load in functions that lms_verify_pieces alone calls, which read the caller's pieces. */
static APART uint64_t i64_load_or_piece(struct machine *m, uint64_t address, uint64_t offset) {
    uint64_t at = sum(m, address, offset) - PIECES;
    if (at / PIECE_LEN < m->piece_count) {
        const struct lms_piece *piece = m->pieces + (size_t)(at / PIECE_LEN);
        if (at % PIECE_LEN == 0) return address_of(piece->bytes);
        if (at % PIECE_LEN == 8) return piece->len;
    }
    return i64_load(m, address, offset);
}

static inline uint32_t i32_rotl(uint32_t value, unsigned places) {
    return value << places | value >> (32 - places);
}

static inline uint32_t i32_rotr(uint32_t value, unsigned places) {
    return value >> places | value << (32 - places);
}

/* (Signed numbers are ordered as the unsigned ones with the highest bit turned.) */
static inline bool i64_lt_s(uint64_t left, uint64_t right) {
    return (left ^ (uint64_t)1 << 63) < (right ^ (uint64_t)1 << 63);
}

/* The compression of SHA-256 that the module's functions call: the proved one, or the caller's, which gets
 * eight words that it changes, and one block. */
#define PROVED_COMPRESS f9_block256_compress
#ifdef LMS_COMPRESS
void LMS_COMPRESS(uint32_t state[8], const uint8_t *blocks, size_t count);

static APART void compress_by_caller(struct machine *m, uint64_t state, uint64_t block) {
    uint32_t words[8];
    const uint8_t *found;
    unsigned k;
    if (!readable(m, ADDRESS(m, block, 0), 64, &found)) return;
    for (k = 0; k < 8; k++) words[k] = i32_load(m, state, 4 * k);
    LMS_COMPRESS(words, found, 1);
    for (k = 0; k < 8; k++) i32_store(m, state, 4 * k, words[k]);
}

#define COMPRESS compress_by_caller
#else
#define COMPRESS PROVED_COMPRESS
#endif

/* ---- The module's functions. m is the machine; p0.. are parameters, l0.. locals, t0.. operands
 * that wait on WebAssembly's stack. */

/* __rattle_enter */
static uint32_t f0_rattle_enter(struct machine *m) {
    uint32_t l0 = 0;
    l0 = m->in_call;
    m->in_call = 1u;
    return (uint32_t)(l0 != 0u);
}

/* __rattle_leave */
static void f1_rattle_leave(struct machine *m) {
    m->in_call = 0u;
}

/* __rattle_trap */
static void f2_rattle_trap(struct machine *m) {
    UNREACHABLE();
}

/* sha2::block256::compress */
static void f9_block256_compress(struct machine *m, uint64_t p0, uint64_t p1) {
    uint32_t l2 = 0, l3 = 0, l4 = 0, l5 = 0, l6 = 0, l7 = 0, l8 = 0, l9 = 0, l10 = 0, l11 = 0, l12 = 0, l13 = 0, l14 = 0, l15 = 0, l16 = 0, l17 = 0, l18 = 0, l19 = 0, l20 = 0, l21 = 0, l22 = 0, l23 = 0, l24 = 0, l25 = 0, l26 = 0, l27 = 0, l28 = 0, l29 = 0, l30 = 0, l31 = 0, l32 = 0, l33 = 0, l34 = 0, l35 = 0, l36 = 0, l37 = 0, t0 = 0, t1 = 0, t2 = 0, t3 = 0, t4 = 0, t5 = 0, t6 = 0, t7 = 0, t8 = 0, t9 = 0, t10 = 0, t11 = 0, t12 = 0, t13 = 0, t14 = 0, t15 = 0, t16 = 0, t17 = 0, t18 = 0, t19 = 0;
    if (i64_lt_s(m->stack_pointer, 16ull)) goto after0;
    l2 = i32_load(m, p0, 0);
    l3 = i32_load(m, p0, 8);
    l4 = i32_load(m, p0, 4);
    l5 = l4 ^ l2;
    l6 = i32_load(m, p0, 28);
    l7 = i32_load(m, p1, 0);
    l7 = i32_rotr(l7 & 0xff00ffu, 8) | (i32_rotr(l7, 24) & 0xff00ffu);
    l8 = i32_load(m, p0, 16);
    l9 = i32_load(m, p0, 24);
    l10 = i32_load(m, p0, 20);
    l11 = l6 + l7 + i32_rotl(i32_rotl(i32_rotl(l8, 18) ^ l8, 27) ^ l8, 26) + (((l9 ^ l10) & l8) ^ l9) + 0x428a2f98u;
    l12 = i32_rotl(i32_rotl(i32_rotl(l2, 23) ^ l2, 21) ^ l2, 30) + (((l3 ^ l4) & l5) ^ l4) + l11;
    l13 = l12 ^ l2;
    t0 = i32_rotl(i32_rotl(i32_rotl(l12, 23) ^ l12, 21) ^ l12, 30) + ((l13 & l5) ^ l2);
    l5 = i32_load(m, p1, 4);
    l14 = i32_rotr(l5 & 0xff00ffu, 8) | (i32_rotr(l5, 24) & 0xff00ffu);
    l15 = i32_load(m, p0, 12);
    l5 = l11 + l15;
    l16 = l9 + l14 + ((l5 & (l10 ^ l8)) ^ l10) + i32_rotl(i32_rotl(i32_rotl(l5, 18) ^ l5, 27) ^ l5, 26) + 0x71374491u;
    l17 = t0 + l16;
    l18 = l17 ^ l12;
    l11 = i32_load(m, p1, 8);
    l11 = i32_rotr(l11 & 0xff00ffu, 8) | (i32_rotr(l11, 24) & 0xff00ffu);
    l19 = l16 + l3;
    l16 = l10 + l11 + ((l19 & (l5 ^ l8)) ^ l8) + i32_rotl(i32_rotl(i32_rotl(l19, 18) ^ l19, 27) ^ l19, 26) + 0xb5c0fbcfu;
    l20 = i32_rotl(i32_rotl(i32_rotl(l17, 23) ^ l17, 21) ^ l17, 30) + ((l18 & l13) ^ l12) + l16;
    l21 = l20 ^ l17;
    l13 = i32_load(m, p1, 12);
    l13 = i32_rotr(l13 & 0xff00ffu, 8) | (i32_rotr(l13, 24) & 0xff00ffu);
    l22 = l16 + l4;
    t1 = i32_rotl(i32_rotl(i32_rotl(l20, 23) ^ l20, 21) ^ l20, 30) + ((l21 & l18) ^ l17);
    l18 = l8 + l13 + ((l22 & (l19 ^ l5)) ^ l5) + i32_rotl(i32_rotl(i32_rotl(l22, 18) ^ l22, 27) ^ l22, 26) + 0xe9b5dba5u;
    l23 = t1 + l18;
    l24 = l23 ^ l20;
    l16 = i32_load(m, p1, 16);
    l16 = i32_rotr(l16 & 0xff00ffu, 8) | (i32_rotr(l16, 24) & 0xff00ffu);
    t2 = l16 + l5;
    l5 = l18 + l2;
    t3 = i32_rotl(i32_rotl(i32_rotl(l23, 23) ^ l23, 21) ^ l23, 30) + ((l24 & l21) ^ l20);
    l21 = t2 + ((l5 & (l22 ^ l19)) ^ l19) + i32_rotl(i32_rotl(i32_rotl(l5, 18) ^ l5, 27) ^ l5, 26) + 0x3956c25bu;
    l25 = t3 + l21;
    l26 = l25 ^ l23;
    l18 = i32_load(m, p1, 20);
    l18 = i32_rotr(l18 & 0xff00ffu, 8) | (i32_rotr(l18, 24) & 0xff00ffu);
    l21 = l21 + l12;
    l12 = l18 + l19 + ((l21 & (l5 ^ l22)) ^ l22) + i32_rotl(i32_rotl(i32_rotl(l21, 18) ^ l21, 27) ^ l21, 26) + 0x59f111f1u;
    l24 = i32_rotl(i32_rotl(i32_rotl(l25, 23) ^ l25, 21) ^ l25, 30) + ((l26 & l24) ^ l23) + l12;
    l27 = l24 ^ l25;
    l19 = i32_load(m, p1, 24);
    l19 = i32_rotr(l19 & 0xff00ffu, 8) | (i32_rotr(l19, 24) & 0xff00ffu);
    l17 = l12 + l17;
    l12 = l19 + l22 + ((l17 & (l21 ^ l5)) ^ l5) + i32_rotl(i32_rotl(i32_rotl(l17, 18) ^ l17, 27) ^ l17, 26) + 0x923f82a4u;
    l26 = i32_rotl(i32_rotl(i32_rotl(l24, 23) ^ l24, 21) ^ l24, 30) + ((l27 & l26) ^ l25) + l12;
    l28 = l26 ^ l24;
    l22 = i32_load(m, p1, 28);
    l22 = i32_rotr(l22 & 0xff00ffu, 8) | (i32_rotr(l22, 24) & 0xff00ffu);
    t4 = l22 + l5;
    l5 = l12 + l20;
    l20 = t4 + ((l5 & (l17 ^ l21)) ^ l21) + i32_rotl(i32_rotl(i32_rotl(l5, 18) ^ l5, 27) ^ l5, 26) + 0xab1c5ed5u;
    l27 = i32_rotl(i32_rotl(i32_rotl(l26, 23) ^ l26, 21) ^ l26, 30) + ((l28 & l27) ^ l24) + l20;
    l29 = l27 ^ l26;
    l12 = i32_load(m, p1, 32);
    l12 = i32_rotr(l12 & 0xff00ffu, 8) | (i32_rotr(l12, 24) & 0xff00ffu);
    l23 = l20 + l23;
    l20 = l12 + l21 + ((l23 & (l5 ^ l17)) ^ l17) + i32_rotl(i32_rotl(i32_rotl(l23, 18) ^ l23, 27) ^ l23, 26) + 0xd807aa98u;
    l28 = i32_rotl(i32_rotl(i32_rotl(l27, 23) ^ l27, 21) ^ l27, 30) + ((l29 & l28) ^ l26) + l20;
    l30 = l28 ^ l27;
    l21 = i32_load(m, p1, 36);
    l21 = i32_rotr(l21 & 0xff00ffu, 8) | (i32_rotr(l21, 24) & 0xff00ffu);
    l25 = l20 + l25;
    l20 = l21 + l17 + ((l25 & (l23 ^ l5)) ^ l5) + i32_rotl(i32_rotl(i32_rotl(l25, 18) ^ l25, 27) ^ l25, 26) + 0x12835b01u;
    l29 = i32_rotl(i32_rotl(i32_rotl(l28, 23) ^ l28, 21) ^ l28, 30) + ((l30 & l29) ^ l27) + l20;
    l31 = l29 ^ l28;
    l17 = i32_load(m, p1, 40);
    l17 = i32_rotr(l17 & 0xff00ffu, 8) | (i32_rotr(l17, 24) & 0xff00ffu);
    t5 = l17 + l5;
    l5 = l20 + l24;
    l24 = t5 + ((l5 & (l25 ^ l23)) ^ l23) + i32_rotl(i32_rotl(i32_rotl(l5, 18) ^ l5, 27) ^ l5, 26) + 0x243185beu;
    l32 = i32_rotl(i32_rotl(i32_rotl(l29, 23) ^ l29, 21) ^ l29, 30) + ((l31 & l30) ^ l28) + l24;
    l30 = l32 ^ l29;
    l20 = i32_load(m, p1, 44);
    l20 = i32_rotr(l20 & 0xff00ffu, 8) | (i32_rotr(l20, 24) & 0xff00ffu);
    l26 = l24 + l26;
    l24 = l20 + l23 + ((l26 & (l5 ^ l25)) ^ l25) + i32_rotl(i32_rotl(i32_rotl(l26, 18) ^ l26, 27) ^ l26, 26) + 0x550c7dc3u;
    l33 = i32_rotl(i32_rotl(i32_rotl(l32, 23) ^ l32, 21) ^ l32, 30) + ((l30 & l31) ^ l29) + l24;
    l34 = l33 ^ l32;
    l23 = i32_load(m, p1, 48);
    l23 = i32_rotr(l23 & 0xff00ffu, 8) | (i32_rotr(l23, 24) & 0xff00ffu);
    l31 = l24 + l27;
    l24 = l23 + l25 + ((l31 & (l26 ^ l5)) ^ l5) + i32_rotl(i32_rotl(i32_rotl(l31, 18) ^ l31, 27) ^ l31, 26) + 0x72be5d74u;
    l35 = i32_rotl(i32_rotl(i32_rotl(l33, 23) ^ l33, 21) ^ l33, 30) + ((l34 & l30) ^ l32) + l24;
    l30 = l35 ^ l33;
    l25 = i32_load(m, p1, 52);
    l25 = i32_rotr(l25 & 0xff00ffu, 8) | (i32_rotr(l25, 24) & 0xff00ffu);
    l27 = l24 + l28;
    l5 = l25 + l5 + ((l27 & (l31 ^ l26)) ^ l26) + i32_rotl(i32_rotl(i32_rotl(l27, 18) ^ l27, 27) ^ l27, 26) + 0x80deb1feu;
    l28 = i32_rotl(i32_rotl(i32_rotl(l35, 23) ^ l35, 21) ^ l35, 30) + ((l30 & l34) ^ l33) + l5;
    l34 = l28 ^ l35;
    l24 = i32_load(m, p1, 56);
    l24 = i32_rotr(l24 & 0xff00ffu, 8) | (i32_rotr(l24, 24) & 0xff00ffu);
    l29 = l5 + l29;
    l5 = l24 + l26 + ((l29 & (l27 ^ l31)) ^ l31) + i32_rotl(i32_rotl(i32_rotl(l29, 18) ^ l29, 27) ^ l29, 26) + 0x9bdc06a7u;
    l30 = i32_rotl(i32_rotl(i32_rotl(l28, 23) ^ l28, 21) ^ l28, 30) + ((l34 & l30) ^ l35) + l5;
    l26 = i32_load(m, p1, 60);
    l26 = i32_rotr(l26 & 0xff00ffu, 8) | (i32_rotr(l26, 24) & 0xff00ffu);
    t6 = l26 + l31;
    l31 = l5 + l32;
    l5 = t6 + ((l31 & (l29 ^ l27)) ^ l27) + i32_rotl(i32_rotl(i32_rotl(l31, 18) ^ l31, 27) ^ l31, 26) + 0xc19bf174u;
    l32 = i32_rotl(i32_rotl(i32_rotl(l30, 23) ^ l30, 21) ^ l30, 30) + (((l30 ^ l28) & l34) ^ l28) + l5;
    l5 = l5 + l33;
    p1 = 0ull;
    again1: LOOP();
        l34 = l30 ^ l32;
        l7 = l7 + l21 + (i32_rotl(i32_rotl(l24, 30) ^ l24, 15) ^ (l24 >> 10)) + (i32_rotl(i32_rotl(l14, 21) ^ l14, 25) ^ (l14 >> 3));
        l27 = i32_rotl(i32_rotl(i32_rotl(l5, 18) ^ l5, 27) ^ l5, 26) + l27 + (((l29 ^ l31) & l5) ^ l29) + i32_load(m, p1 + CONSTANT(64), 0) + l7;
        l33 = i32_rotl(i32_rotl(i32_rotl(l32, 23) ^ l32, 21) ^ l32, 30) + (((l28 ^ l30) & l34) ^ l30) + l27;
        l36 = l33 ^ l32;
        l27 = l27 + l35;
        t7 = i32_rotl(i32_rotl(i32_rotl(l33, 23) ^ l33, 21) ^ l33, 30) + ((l36 & l34) ^ l32);
        l34 = l17 + l14 + (i32_rotl(i32_rotl(l26, 30) ^ l26, 15) ^ (l26 >> 10)) + (i32_rotl(i32_rotl(l11, 21) ^ l11, 25) ^ (l11 >> 3));
        l35 = i32_load(m, p1 + CONSTANT(68), 0) + l29 + ((l27 & (l31 ^ l5)) ^ l31) + l34 + i32_rotl(i32_rotl(i32_rotl(l27, 18) ^ l27, 27) ^ l27, 26);
        l29 = t7 + l35;
        l14 = l29 ^ l33;
        l11 = l20 + l11 + (i32_rotl(i32_rotl(l7, 30) ^ l7, 15) ^ (l7 >> 10)) + (i32_rotl(i32_rotl(l13, 21) ^ l13, 25) ^ (l13 >> 3));
        l28 = l35 + l28;
        l35 = i32_load(m, p1 + CONSTANT(72), 0) + l31 + l11 + ((l28 & (l27 ^ l5)) ^ l5) + i32_rotl(i32_rotl(i32_rotl(l28, 18) ^ l28, 27) ^ l28, 26);
        l31 = i32_rotl(i32_rotl(i32_rotl(l29, 23) ^ l29, 21) ^ l29, 30) + ((l14 & l36) ^ l33) + l35;
        l36 = l31 ^ l29;
        l13 = l23 + l13 + (i32_rotl(i32_rotl(l34, 30) ^ l34, 15) ^ (l34 >> 10)) + (i32_rotl(i32_rotl(l16, 21) ^ l16, 25) ^ (l16 >> 3));
        t8 = i32_load(m, p1 + CONSTANT(76), 0) + l5 + l13;
        l5 = l35 + l30;
        l35 = t8 + ((l5 & (l28 ^ l27)) ^ l27) + i32_rotl(i32_rotl(i32_rotl(l5, 18) ^ l5, 27) ^ l5, 26);
        l30 = i32_rotl(i32_rotl(i32_rotl(l31, 23) ^ l31, 21) ^ l31, 30) + ((l36 & l14) ^ l29) + l35;
        l14 = l30 ^ l31;
        l16 = l25 + l16 + (i32_rotl(i32_rotl(l11, 30) ^ l11, 15) ^ (l11 >> 10)) + (i32_rotl(i32_rotl(l18, 21) ^ l18, 25) ^ (l18 >> 3));
        t9 = i32_load(m, p1 + CONSTANT(80), 0) + l27 + l16;
        l27 = l35 + l32;
        l35 = t9 + ((l27 & (l5 ^ l28)) ^ l28) + i32_rotl(i32_rotl(i32_rotl(l27, 18) ^ l27, 27) ^ l27, 26);
        l32 = i32_rotl(i32_rotl(i32_rotl(l30, 23) ^ l30, 21) ^ l30, 30) + ((l14 & l36) ^ l31) + l35;
        l36 = l32 ^ l30;
        l18 = l18 + l24 + (i32_rotl(i32_rotl(l13, 30) ^ l13, 15) ^ (l13 >> 10)) + (i32_rotl(i32_rotl(l19, 21) ^ l19, 25) ^ (l19 >> 3));
        t10 = i32_load(m, p1 + CONSTANT(84), 0) + l28 + l18;
        l28 = l35 + l33;
        l33 = t10 + ((l28 & (l27 ^ l5)) ^ l5) + i32_rotl(i32_rotl(i32_rotl(l28, 18) ^ l28, 27) ^ l28, 26);
        l35 = i32_rotl(i32_rotl(i32_rotl(l32, 23) ^ l32, 21) ^ l32, 30) + ((l36 & l14) ^ l30) + l33;
        l14 = l35 ^ l32;
        l19 = l19 + l26 + (i32_rotl(i32_rotl(l16, 30) ^ l16, 15) ^ (l16 >> 10)) + (i32_rotl(i32_rotl(l22, 21) ^ l22, 25) ^ (l22 >> 3));
        t11 = l5 + i32_load(m, p1 + CONSTANT(88), 0) + l19;
        l5 = l33 + l29;
        l33 = t11 + ((l5 & (l28 ^ l27)) ^ l27) + i32_rotl(i32_rotl(i32_rotl(l5, 18) ^ l5, 27) ^ l5, 26);
        l29 = i32_rotl(i32_rotl(i32_rotl(l35, 23) ^ l35, 21) ^ l35, 30) + ((l14 & l36) ^ l32) + l33;
        l36 = l29 ^ l35;
        l22 = l22 + l7 + (i32_rotl(i32_rotl(l18, 30) ^ l18, 15) ^ (l18 >> 10)) + (i32_rotl(i32_rotl(l12, 21) ^ l12, 25) ^ (l12 >> 3));
        t12 = l22 + i32_load(m, p1 + CONSTANT(92), 0) + l27;
        l27 = l33 + l31;
        l33 = t12 + ((l27 & (l5 ^ l28)) ^ l28) + i32_rotl(i32_rotl(i32_rotl(l27, 18) ^ l27, 27) ^ l27, 26);
        l31 = i32_rotl(i32_rotl(i32_rotl(l29, 23) ^ l29, 21) ^ l29, 30) + ((l36 & l14) ^ l35) + l33;
        l14 = l31 ^ l29;
        l12 = l34 + (i32_rotl(i32_rotl(l21, 21) ^ l21, 25) ^ (l21 >> 3)) + l12 + (i32_rotl(i32_rotl(l19, 30) ^ l19, 15) ^ (l19 >> 10));
        t13 = l12 + i32_load(m, p1 + CONSTANT(96), 0) + l28;
        l28 = l33 + l30;
        l33 = t13 + ((l28 & (l27 ^ l5)) ^ l5) + i32_rotl(i32_rotl(i32_rotl(l28, 18) ^ l28, 27) ^ l28, 26);
        l30 = i32_rotl(i32_rotl(i32_rotl(l31, 23) ^ l31, 21) ^ l31, 30) + ((l14 & l36) ^ l29) + l33;
        l36 = l30 ^ l31;
        l21 = (i32_rotl(i32_rotl(l17, 21) ^ l17, 25) ^ (l17 >> 3)) + l21 + l11 + (i32_rotl(i32_rotl(l22, 30) ^ l22, 15) ^ (l22 >> 10));
        t14 = l21 + i32_load(m, p1 + CONSTANT(100), 0) + l5;
        l5 = l33 + l32;
        l33 = t14 + ((l5 & (l28 ^ l27)) ^ l27) + i32_rotl(i32_rotl(i32_rotl(l5, 18) ^ l5, 27) ^ l5, 26);
        l32 = i32_rotl(i32_rotl(i32_rotl(l30, 23) ^ l30, 21) ^ l30, 30) + ((l36 & l14) ^ l31) + l33;
        l14 = l32 ^ l30;
        l17 = (i32_rotl(i32_rotl(l20, 21) ^ l20, 25) ^ (l20 >> 3)) + l17 + l13 + (i32_rotl(i32_rotl(l12, 30) ^ l12, 15) ^ (l12 >> 10));
        t15 = l17 + i32_load(m, p1 + CONSTANT(104), 0) + l27;
        l27 = l33 + l35;
        l35 = t15 + ((l27 & (l5 ^ l28)) ^ l28) + i32_rotl(i32_rotl(i32_rotl(l27, 18) ^ l27, 27) ^ l27, 26);
        l33 = i32_rotl(i32_rotl(i32_rotl(l32, 23) ^ l32, 21) ^ l32, 30) + ((l14 & l36) ^ l30) + l35;
        l36 = l33 ^ l32;
        l20 = (i32_rotl(i32_rotl(l23, 21) ^ l23, 25) ^ (l23 >> 3)) + l20 + l16 + (i32_rotl(i32_rotl(l21, 30) ^ l21, 15) ^ (l21 >> 10));
        l29 = l35 + l29;
        l28 = l20 + i32_load(m, p1 + CONSTANT(108), 0) + l28 + ((l29 & (l27 ^ l5)) ^ l5) + i32_rotl(i32_rotl(i32_rotl(l29, 18) ^ l29, 27) ^ l29, 26);
        l14 = i32_rotl(i32_rotl(i32_rotl(l33, 23) ^ l33, 21) ^ l33, 30) + ((l36 & l14) ^ l32) + l28;
        l37 = l14 ^ l33;
        l23 = (i32_rotl(i32_rotl(l25, 21) ^ l25, 25) ^ (l25 >> 3)) + l23 + l18 + (i32_rotl(i32_rotl(l17, 30) ^ l17, 15) ^ (l17 >> 10));
        t16 = l23 + i32_load(m, p1 + CONSTANT(112), 0) + l5;
        l5 = l28 + l31;
        l28 = t16 + ((l5 & (l29 ^ l27)) ^ l27) + i32_rotl(i32_rotl(i32_rotl(l5, 18) ^ l5, 27) ^ l5, 26);
        l35 = i32_rotl(i32_rotl(i32_rotl(l14, 23) ^ l14, 21) ^ l14, 30) + ((l37 & l36) ^ l33) + l28;
        l31 = l35 ^ l14;
        l25 = l25 + (i32_rotl(i32_rotl(l24, 21) ^ l24, 25) ^ (l24 >> 3)) + l19 + (i32_rotl(i32_rotl(l20, 30) ^ l20, 15) ^ (l20 >> 10));
        t17 = l25 + i32_load(m, p1 + CONSTANT(116), 0) + l27;
        l27 = l28 + l30;
        l30 = t17 + ((l27 & (l5 ^ l29)) ^ l29) + i32_rotl(i32_rotl(i32_rotl(l27, 18) ^ l27, 27) ^ l27, 26);
        l28 = i32_rotl(i32_rotl(i32_rotl(l35, 23) ^ l35, 21) ^ l35, 30) + ((l31 & l37) ^ l14) + l30;
        l36 = l28 ^ l35;
        l24 = (i32_rotl(i32_rotl(l26, 21) ^ l26, 25) ^ (l26 >> 3)) + l24 + l22 + (i32_rotl(i32_rotl(l23, 30) ^ l23, 15) ^ (l23 >> 10));
        t18 = l24 + i32_load(m, p1 + CONSTANT(120), 0) + l29;
        l29 = l30 + l32;
        t19 = i32_rotl(i32_rotl(i32_rotl(l28, 23) ^ l28, 21) ^ l28, 30) + ((l36 & l31) ^ l35);
        l31 = t18 + ((l29 & (l27 ^ l5)) ^ l5) + i32_rotl(i32_rotl(i32_rotl(l29, 18) ^ l29, 27) ^ l29, 26);
        l30 = t19 + l31;
        l26 = (i32_rotl(i32_rotl(l7, 21) ^ l7, 25) ^ (l7 >> 3)) + l26 + l12 + (i32_rotl(i32_rotl(l25, 30) ^ l25, 15) ^ (l25 >> 10));
        l31 = l31 + l33;
        l5 = l26 + i32_load(m, p1 + CONSTANT(124), 0) + l5 + ((l31 & (l29 ^ l27)) ^ l27) + i32_rotl(i32_rotl(i32_rotl(l31, 18) ^ l31, 27) ^ l31, 26);
        l32 = i32_rotl(i32_rotl(i32_rotl(l30, 23) ^ l30, 21) ^ l30, 30) + (((l30 ^ l28) & l36) ^ l28) + l5;
        l5 = l5 + l14;
        l14 = l34;
        p1 = p1 + 64ull;
        if (p1 != 192ull) goto again1;
    i32_store(m, p0, 28, l27 + l6);
    i32_store(m, p0, 24, l29 + l9);
    i32_store(m, p0, 20, l31 + l10);
    i32_store(m, p0, 16, l5 + l8);
    i32_store(m, p0, 12, l35 + l15);
    i32_store(m, p0, 8, l28 + l3);
    i32_store(m, p0, 4, l30 + l4);
    i32_store(m, p0, 0, l32 + l2);
    return;
    after0:;
    UNREACHABLE();
}

/* sha2::block256::Core256::update */
static void f5_Core256_update(struct machine *m, uint64_t p0, uint64_t p1, uint64_t p2) {
    uint64_t l3 = 0, l4 = 0, l5 = 0, l6 = 0, l7 = 0, l8 = 0, l9 = 0, l10 = 0, l11 = 0, l12 = 0, t0 = 0;
    l3 = m->stack_pointer;
    if (i64_lt_s(l3, 16ull)) goto after4;
    l4 = p0 + 96ull;
    t0 = l4;
    l4 = i64_load(m, l4, 0);
    i64_store(m, t0, 0, l4 + p2);
    l5 = l4 & 63ull;
    if (l5 != 0) goto after6;
    l6 = 0ull;
    goto after5;
    after6:;
    l7 = p0 + 32ull;
    l8 = l7 + l5;
    l4 = l8 - p1;
    l6 = 64ull - l5;
    if (p2 < l6) goto after3;
    if (l4 >= l6) goto after8;
    l9 = l6 & 3ull;
    l8 = 0ull;
    if ((l5 ^ 63ull) < 3ull) goto after9;
    l10 = p0 + l5;
    l11 = l6 & 124ull;
    l8 = 0ull;
    again10: LOOP();
        l4 = l10 + l8;
        l12 = p1 + l8;
        i32_store8(m, l4 + 32ull, 0, i32_load8_u(m, l12, 0));
        i32_store8(m, l4 + 33ull, 0, i32_load8_u(m, l12 + 1ull, 0));
        i32_store8(m, l4 + 34ull, 0, i32_load8_u(m, l12 + 2ull, 0));
        i32_store8(m, l4 + 35ull, 0, i32_load8_u(m, l12 + 3ull, 0));
        l8 = l8 + 4ull;
        if (l11 != l8) goto again10;
    if (l9 == 0) goto after7;
    after9:;
    l4 = p1 + l8;
    l8 = l8 + l5 + p0 + 32ull;
    again11: LOOP();
        i32_store8(m, l8, 0, i32_load8_u(m, l4, 0));
        l8 = l8 + 1ull;
        l4 = l4 + 1ull;
        l9 = l9 - 1ull;
        if (l9 != 0ull) goto again11;
        goto after7;
    after8:;
    if (l6 == 0) goto after7;
    memory_copy(m, l8, p1, l6);
    after7:;
    COMPRESS(m, p0, l7);
    after5:;
    l12 = p2 - l6;
    l8 = l12 >> 6;
    if (l8 == 0) goto after12;
    l4 = p1 + l6;
    again13: LOOP();
        COMPRESS(m, p0, l4);
        l4 = l4 + 64ull;
        l8 = l8 - 1ull;
        if (l8 != 0ull) goto again13;
    after12:;
    l8 = p0 + 32ull;
    l10 = l12 & 0xffffffffffffffc0ull;
    l4 = l10 + l6;
    l5 = p1 + l4;
    l4 = p2 - l4;
    if ((l8 - l5) >= l4) goto after14;
    l9 = l4 & 3ull;
    l8 = 0ull;
    if (((l6 - p2) + l10) > 0xfffffffffffffffcull) goto after1;
    p2 = l4 & 0xfffffffffffffffcull;
    l8 = 0ull;
    again15: LOOP();
        l4 = p0 + l8;
        l12 = l5 + l8;
        i32_store8(m, l4 + 32ull, 0, i32_load8_u(m, l12, 0));
        i32_store8(m, l4 + 33ull, 0, i32_load8_u(m, l12 + 1ull, 0));
        i32_store8(m, l4 + 34ull, 0, i32_load8_u(m, l12 + 2ull, 0));
        i32_store8(m, l4 + 35ull, 0, i32_load8_u(m, l12 + 3ull, 0));
        l8 = l8 + 4ull;
        if (p2 != l8) goto again15;
        goto after2;
    after14:;
    if (l4 == 0) goto after0;
    memory_copy(m, l8, l5, l4);
    m->stack_pointer = l3;
    return;
    after4:;
    UNREACHABLE();
    after3:;
    if (l4 >= p2) goto after18;
    l9 = p2 & 3ull;
    l8 = 0ull;
    if (p2 < 4ull) goto after16;
    l6 = p0 + l5;
    p2 = p2 & 0xfffffffffffffffcull;
    l8 = 0ull;
    again19: LOOP();
        l4 = l6 + l8;
        l12 = p1 + l8;
        i32_store8(m, l4 + 32ull, 0, i32_load8_u(m, l12, 0));
        i32_store8(m, l4 + 33ull, 0, i32_load8_u(m, l12 + 1ull, 0));
        i32_store8(m, l4 + 34ull, 0, i32_load8_u(m, l12 + 2ull, 0));
        i32_store8(m, l4 + 35ull, 0, i32_load8_u(m, l12 + 3ull, 0));
        l8 = l8 + 4ull;
        if (p2 != l8) goto again19;
        goto after17;
    after18:;
    if (p2 == 0) goto after0;
    memory_copy(m, l8, p1, p2);
    m->stack_pointer = l3;
    return;
    after17:;
    if (l9 == 0) goto after0;
    after16:;
    l4 = p1 + l8;
    l8 = l8 + l5 + p0 + 32ull;
    again20: LOOP();
        i32_store8(m, l8, 0, i32_load8_u(m, l4, 0));
        l8 = l8 + 1ull;
        l4 = l4 + 1ull;
        l9 = l9 - 1ull;
        if (l9 != 0ull) goto again20;
        goto after0;
    after2:;
    if (l9 == 0) goto after0;
    after1:;
    l4 = l8 + p0 + 32ull;
    l8 = p1 + (l6 + l8 + l10);
    again21: LOOP();
        i32_store8(m, l4, 0, i32_load8_u(m, l8, 0));
        l4 = l4 + 1ull;
        l8 = l8 + 1ull;
        l9 = l9 - 1ull;
        if (l9 != 0) goto again21;
    after0:;
    m->stack_pointer = l3;
}

/* lms_verification::verification::PublicKey::verifier */
static void f4_PublicKey_verifier(struct machine *m, uint64_t p0, uint64_t p1, uint64_t p2, uint64_t p3) {
    uint32_t l5 = 0, l6 = 0, l8 = 0, l9 = 0, l13 = 0;
    uint64_t l4 = 0, l7 = 0, l10 = 0, l11 = 0, l12 = 0, l14 = 0, l15 = 0, l16 = 0, l17 = 0, l18 = 0;
    l4 = m->stack_pointer - 336ull;
    m->stack_pointer = l4;
    if (i64_lt_s(l4, 16ull)) goto after2;
    l5 = i32_load8_u(m, p1, 0);
    l6 = i32_load8_u(m, p1 + 1ull, 0);
    l7 = (uint64_t)l6;
    if (p3 != ((((uint64_t)l5) * 160ull) + i64_load(m, l7 << 3, CONSTANT(352)) + 160ull)) goto after1;
    l8 = i32_load(m, p2, 0);
    l9 = i32_rotr(l8 & 0xff00ffu, 8) | (i32_rotr(l8, 24) & 0xff00ffu);
    if ((32u << ((l5 * 5u) & 31)) <= l9) goto after1;
    l10 = i64_load(m, l7 << 3, CONSTANT(384));
    p3 = (p3 - l10) - 4ull;
    if (p3 < 4ull) goto after1;
    l11 = p2 + 4ull;
    l12 = l11 + l10;
    l13 = i32_load(m, l12, 0);
    if ((i32_rotr(l13 & 0xff00ffu, 8) | (i32_rotr(l13, 24) & 0xff00ffu)) != (l5 + 5u)) goto after1;
    i64_store(m, l4, 88, i64_load(m, p1 + 10ull, 0));
    l14 = p1 + 2ull;
    i64_store(m, l4, 80, i64_load(m, l14, 0));
    if (l10 != i64_load(m, l7 << 3, CONSTANT(384))) goto after3;
    l5 = i32_load(m, l11, 0);
    if ((i32_rotr(l5 & 0xff00ffu, 8) | (i32_rotr(l5, 24) & 0xff00ffu)) != (l6 + 1u)) goto after3;
    i64_store(m, l4, 208, i64_load(m, l14, 8));
    i64_store(m, l4, 200, i64_load(m, l14, 0));
    i32_store(m, l4, 216, l9);
    memory_fill(m, l4 + 224ull + 32ull, 0u, 72ull);
    i64_store(m, l4, 248, 0x5be0cd191f83d9abull);
    i64_store(m, l4, 240, 0x9b05688c510e527full);
    i64_store(m, l4, 232, 0xa54ff53a3c6ef372ull);
    i64_store(m, l4, 224, 0xbb67ae856a09e667ull);
    f5_Core256_update(m, l4 + 224ull, l4 + 200ull, 16ull);
    i32_store(m, l4, 332, l8);
    f5_Core256_update(m, l4 + 224ull, l4 + 332ull, 4ull);
    memory_copy(m, l4 + 96ull, l4 + 224ull, 104ull);
    i32_store16(m, l4, 332, 33153u);
    f5_Core256_update(m, l4 + 96ull, l4 + 332ull, 2ull);
    l11 = p2 + 8ull;
    f5_Core256_update(m, l4 + 96ull, l11, 32ull);
    i64_store(m, l4, 64, i64_load(m, l4, 80));
    i64_store(m, l4, 72, i64_load(m, l4, 88));
    l15 = i64_load(m, p1 + 42ull, 0);
    l16 = i64_load(m, p1 + 34ull, 0);
    l17 = i64_load(m, p1 + 26ull, 0);
    l18 = i64_load(m, p1 + 18ull, 0);
    l5 = i32_load8_u(m, p1, 0);
    p1 = i64_load(m, l14, 8);
    l14 = i64_load(m, l14, 0);
    i64_store(m, p0, 0, 1ull);
    i64_store(m, l4, 16, l14);
    i64_store(m, l4, 24, p1);
    i64_store(m, l4, 32, l18);
    i64_store(m, l4, 40, l17);
    i64_store(m, l4, 48, l16);
    i64_store(m, l4, 56, l15);
    i64_store(m, l4, 8, i64_load(m, l4, 72));
    i64_store(m, l4, 0, i64_load(m, l4, 64));
    i64_store(m, p0 + 48ull, 0, i64_load(m, l4, 56));
    i64_store(m, p0 + 40ull, 0, i64_load(m, l4, 48));
    i64_store(m, p0 + 32ull, 0, i64_load(m, l4, 40));
    i64_store(m, p0 + 24ull, 0, i64_load(m, l4, 32));
    i64_store(m, p0 + 16ull, 0, i64_load(m, l4, 24));
    i64_store(m, p0 + 8ull, 0, i64_load(m, l4, 16));
    i32_store(m, p0 + 60ull, 0, 0u);
    i32_store(m, p0 + 56ull, 0, (32u << ((l5 * 5u) & 31)) + l9);
    i64_store(m, p0 + 72ull, 0, i64_load(m, l4, 8));
    i64_store(m, p0 + 64ull, 0, i64_load(m, l4, 0));
    i64_store(m, p0 + 112ull, 0, (l10 - 36ull) >> 5);
    i64_store(m, p0 + 104ull, 0, p2 + 40ull);
    i64_store(m, p0 + 96ull, 0, l11);
    i64_store(m, p0 + 88ull, 0, l7);
    i64_store(m, p0 + 80ull, 0, (uint64_t)l9);
    memory_copy(m, p0 + 120ull, l4 + 96ull, 104ull);
    i64_store(m, p0 + 232ull, 0, (p3 - 4ull) >> 5);
    i64_store(m, p0 + 224ull, 0, l12 + 4ull);
    goto after0;
    after3:;
    memory_fill(m, p0, 0u, 240ull);
    goto after0;
    after2:;
    UNREACHABLE();
    after1:;
    memory_fill(m, p0, 0u, 240ull);
    after0:;
    m->stack_pointer = l4 + 336ull;
}

/* sha2::Sha256Digest::finalize */
static void f6_Sha256Digest_finalize(struct machine *m, uint64_t p0, uint64_t p1) {
    uint32_t l3 = 0, l4 = 0, l5 = 0, l6 = 0, l7 = 0, l8 = 0, l9 = 0, l10 = 0;
    uint64_t l2 = 0;
    l2 = m->stack_pointer - 112ull;
    m->stack_pointer = l2;
    if (i64_lt_s(l2, 16ull)) goto after0;
    memory_copy(m, l2 + 8ull, p1, 104ull);
    p1 = i64_load(m, l2, 104);
    f5_Core256_update(m, l2 + 8ull, CONSTANT(256), ((55ull - p1) & 63ull) + 1ull);
    i64_store(m, l2, 0, ((p1 << 43) & 0xff000000000000ull) | (p1 << 59) | ((p1 << 27) & 0xff0000000000ull) | ((p1 << 11) & 0xff00000000ull) | ((p1 >> 5) & 0xff000000ull) | ((p1 >> 21) & 0xff0000ull) | ((p1 >> 37) & 65280ull) | ((p1 >> 53) & 255ull));
    f5_Core256_update(m, l2 + 8ull, l2, 8ull);
    l3 = i32_load(m, l2, 8);
    l4 = i32_load(m, l2, 12);
    l5 = i32_load(m, l2, 16);
    l6 = i32_load(m, l2, 20);
    l7 = i32_load(m, l2, 24);
    l8 = i32_load(m, l2, 28);
    l9 = i32_load(m, l2, 32);
    l10 = i32_load(m, l2, 36);
    i32_store(m, p0, 28, i32_rotr(l10 & 0xff00ffu, 8) | (i32_rotr(l10, 24) & 0xff00ffu));
    i32_store(m, p0, 24, i32_rotr(l9 & 0xff00ffu, 8) | (i32_rotr(l9, 24) & 0xff00ffu));
    i32_store(m, p0, 20, i32_rotr(l8 & 0xff00ffu, 8) | (i32_rotr(l8, 24) & 0xff00ffu));
    i32_store(m, p0, 16, i32_rotr(l7 & 0xff00ffu, 8) | (i32_rotr(l7, 24) & 0xff00ffu));
    i32_store(m, p0, 12, i32_rotr(l6 & 0xff00ffu, 8) | (i32_rotr(l6, 24) & 0xff00ffu));
    i32_store(m, p0, 8, i32_rotr(l5 & 0xff00ffu, 8) | (i32_rotr(l5, 24) & 0xff00ffu));
    i32_store(m, p0, 4, i32_rotr(l4 & 0xff00ffu, 8) | (i32_rotr(l4, 24) & 0xff00ffu));
    i32_store(m, p0, 0, i32_rotr(l3 & 0xff00ffu, 8) | (i32_rotr(l3, 24) & 0xff00ffu));
    m->stack_pointer = l2 + 112ull;
    return;
    after0:;
    UNREACHABLE();
}

/* lms_ots::verification::candidate_by_hash::<#5e1ab67ffaa221ce> */
static void f7_verification_candidate_by_hash(struct machine *m, uint64_t p0, uint64_t p1, uint64_t p2, uint64_t p3) {
    uint32_t l6 = 0, l7 = 0, l8 = 0, l9 = 0, l10 = 0, l11 = 0, l12 = 0, l13 = 0, l14 = 0, l15 = 0, l16 = 0, l17 = 0, l18 = 0, l19 = 0, l20 = 0, l21 = 0, l22 = 0, l23 = 0, l24 = 0, l25 = 0, l26 = 0, l27 = 0, l28 = 0, l29 = 0, l30 = 0, l31 = 0, l32 = 0, l33 = 0, l34 = 0, l35 = 0, l36 = 0, l37 = 0, l38 = 0;
    uint64_t l4 = 0, l5 = 0, l39 = 0, l40 = 0;
    l4 = m->stack_pointer - 1104ull;
    m->stack_pointer = l4;
    if (i64_lt_s(l4, 16ull)) goto after0;
    l5 = i64_load(m, p1, 16);
    l6 = i32_load8_u(m, p1, 0);
    p1 = 0ull;
    i64_store(m, l4, 560, 0ull);
    i64_store(m, l4, 552, 0ull);
    i64_store(m, l4, 544, 0ull);
    i64_store(m, l4, 536, 0ull);
    i64_store(m, l4, 840, 0ull);
    i64_store(m, l4, 848, 0ull);
    i64_store(m, l4, 856, 0ull);
    i64_store(m, l4, 864, 0ull);
    l7 = 0u;
    i32_store16(m, l4, 872, 0u);
    switch (l6) {
    case 0: goto after4;
    case 1: goto after3;
    case 2: goto after2;
    case 3: goto after5;
    default: goto after4;
    }
    after5:;
    l7 = i32_load8_u(m, p3, 31);
    l8 = i32_load8_u(m, p3, 30);
    l9 = i32_load8_u(m, p3, 29);
    l10 = i32_load8_u(m, p3, 28);
    l11 = i32_load8_u(m, p3, 27);
    l12 = i32_load8_u(m, p3, 26);
    l13 = i32_load8_u(m, p3, 25);
    l14 = i32_load8_u(m, p3, 24);
    l15 = i32_load8_u(m, p3, 23);
    l16 = i32_load8_u(m, p3, 22);
    l17 = i32_load8_u(m, p3, 21);
    l18 = i32_load8_u(m, p3, 20);
    l19 = i32_load8_u(m, p3, 19);
    l20 = i32_load8_u(m, p3, 18);
    l21 = i32_load8_u(m, p3, 17);
    l22 = i32_load8_u(m, p3, 16);
    l23 = i32_load8_u(m, p3, 15);
    l24 = i32_load8_u(m, p3, 14);
    l25 = i32_load8_u(m, p3, 13);
    l26 = i32_load8_u(m, p3, 12);
    l27 = i32_load8_u(m, p3, 11);
    l28 = i32_load8_u(m, p3, 10);
    l29 = i32_load8_u(m, p3, 9);
    l30 = i32_load8_u(m, p3, 8);
    l31 = i32_load8_u(m, p3, 7);
    l32 = i32_load8_u(m, p3, 6);
    l33 = i32_load8_u(m, p3, 5);
    l34 = i32_load8_u(m, p3, 4);
    l35 = i32_load8_u(m, p3, 3);
    l36 = i32_load8_u(m, p3, 2);
    l37 = i32_load8_u(m, p3, 1);
    l38 = i32_load8_u(m, p3, 0);
    i64_store(m, l4, 864, i64_load(m, p3, 24));
    i64_store(m, l4, 856, i64_load(m, p3, 16));
    i64_store(m, l4, 848, i64_load(m, p3, 8));
    i64_store(m, l4, 840, i64_load(m, p3, 0));
    l7 = (l37 ^ 255u) + (l38 ^ 255u) + (l36 ^ 255u) + (l35 ^ 255u) + (l34 ^ 255u) + (l33 ^ 255u) + (l32 ^ 255u) + (l31 ^ 255u) + (l30 ^ 255u) + (l29 ^ 255u) + (l28 ^ 255u) + (l27 ^ 255u) + (l26 ^ 255u) + (l25 ^ 255u) + (l24 ^ 255u) + (l23 ^ 255u) + (l22 ^ 255u) + (l21 ^ 255u) + (l20 ^ 255u) + (l19 ^ 255u) + (l18 ^ 255u) + (l17 ^ 255u) + (l16 ^ 255u) + (l15 ^ 255u) + (l14 ^ 255u) + (l13 ^ 255u) + (l12 ^ 255u) + (l11 ^ 255u) + (l10 ^ 255u) + (l9 ^ 255u) + (l8 ^ 255u) + (l7 ^ 255u);
    i32_store16(m, l4, 872, (l7 << 8) | ((l7 & 65280u) >> 8));
    memory_fill(m, l4 + 568ull, 0u, 265ull);
    p3 = 34ull;
    goto after1;
    after4:;
    p1 = 0ull;
    l7 = 0u;
    again6: LOOP();
        l8 = i32_load8_u(m, p3 + (p1 >> 3), 0);
        l9 = ((uint32_t)p1) & 6u;
        l7 = l7 + (((l8 >> ((l9 ^ 7u) & 31)) ^ 0xffffffffu) & 1u) + (((l8 >> ((l9 ^ 6u) & 31)) ^ 0xffffffffu) & 1u);
        p1 = p1 + 2ull;
        if (p1 != 256ull) goto again6;
    i64_store(m, l4, 864, i64_load(m, p3, 24));
    i64_store(m, l4, 856, i64_load(m, p3, 16));
    i64_store(m, l4, 848, i64_load(m, p3, 8));
    i64_store(m, l4, 840, i64_load(m, p3, 0));
    i32_store16(m, l4, 872, (l7 << 15) | ((l7 >> 1) & 255u));
    p3 = 265ull;
    memory_fill(m, l4 + 568ull, 0u, 265ull);
    goto after1;
    after3:;
    l7 = 0u;
    again7: LOOP();
        l8 = i32_load8_u(m, p3 + (p1 >> 2), 0);
        l9 = (((uint32_t)p1) << 1) & 4u;
        l7 = l7 + (((l8 >> ((l9 ^ 6u) & 31)) ^ 0xffffffffu) & 3u) + (((l8 >> ((l9 ^ 4u) & 31)) ^ 0xffffffffu) & 3u);
        p1 = p1 + 2ull;
        if (p1 != 128ull) goto again7;
    i64_store(m, l4, 864, i64_load(m, p3, 24));
    i64_store(m, l4, 856, i64_load(m, p3, 16));
    i64_store(m, l4, 848, i64_load(m, p3, 8));
    i64_store(m, l4, 840, i64_load(m, p3, 0));
    i32_store16(m, l4, 872, (l7 << 14) | ((l7 >> 2) & 255u));
    memory_fill(m, l4 + 568ull, 0u, 265ull);
    p3 = 133ull;
    goto after1;
    after2:;
    l39 = 64ull;
    p1 = p3;
    again8: LOOP();
        l8 = i32_load8_u(m, p1, 0) ^ 0xffffffffu;
        l7 = l7 + ((l8 & 240u) >> 4) + (l8 & 15u);
        p1 = p1 + 1ull;
        l39 = l39 - 2ull;
        if (l39 != 0) goto again8;
    i64_store(m, l4, 864, i64_load(m, p3, 24));
    i64_store(m, l4, 856, i64_load(m, p3, 16));
    i64_store(m, l4, 848, i64_load(m, p3, 8));
    i64_store(m, l4, 840, i64_load(m, p3, 0));
    i32_store16(m, l4, 872, (l7 << 12) | ((l7 >> 4) & 255u));
    memory_fill(m, l4 + 568ull, 0u, 265ull);
    p3 = 67ull;
    after1:;
    l40 = (uint64_t)l6;
    p1 = 0ull;
    again9: LOOP();
        switch (l6) {
        case 0: goto after14;
        case 1: goto after13;
        case 2: goto after12;
        case 3: goto after11;
        default: goto after14;
        }
        after14:;
        l7 = 7u;
        l8 = i32_load8_u(m, l4 + 840ull + (p1 >> 3), 0) >> (((((uint32_t)p1) ^ 0xffffffffu) & 7u) & 31);
        goto after10;
        after13:;
        l7 = 6u;
        l8 = i32_load8_u(m, l4 + 840ull + (p1 >> 2), 0) >> ((((((uint32_t)p1) ^ 0xffffffffu) << 1) & 6u) & 31);
        goto after10;
        after12:;
        l7 = 4u;
        l8 = i32_load8_u(m, l4 + 840ull + (p1 >> 1), 0) >> ((((((uint32_t)p1) ^ 0xffffffffu) << 2) & 4u) & 31);
        goto after10;
        after11:;
        l8 = i32_load8_u(m, l4 + 840ull + p1, 0);
        l7 = 0u;
        after10:;
        i32_store8(m, l4 + 568ull + p1, 0, (255u >> (l7 & 31)) & l8);
        p1 = p1 + 1ull;
        if (p3 != p1) goto again9;
    memory_copy(m, l4 + 6ull, l4 + 568ull, 265ull);
    memory_copy(m, l4 + 271ull, l4 + 6ull, 265ull);
    l39 = 0ull;
    i64_store(m, l4, 968, 0ull);
    i64_store(m, l4, 976, 0ull);
    i64_store(m, l4, 984, 0ull);
    i64_store(m, l4, 992, 0ull);
    i64_store(m, l4, 944, i64_load(m, p2, 0));
    i64_store(m, l4, 952, i64_load(m, p2, 8));
    l7 = i32_load(m, p2, 16);
    i32_store(m, l4, 960, l7);
    memory_fill(m, l4 + 1000ull + 32ull, 0u, 72ull);
    i64_store(m, l4, 1024, 0x5be0cd191f83d9abull);
    i64_store(m, l4, 1016, 0x9b05688c510e527full);
    i64_store(m, l4, 1008, 0xa54ff53a3c6ef372ull);
    i64_store(m, l4, 1000, 0xbb67ae856a09e667ull);
    f5_Core256_update(m, l4 + 1000ull, l4 + 944ull, 16ull);
    i32_store(m, l4, 568, i32_rotr(l7 & 0xff00ffu, 8) | (i32_rotr(l7, 24) & 0xff00ffu));
    f5_Core256_update(m, l4 + 1000ull, l4 + 568ull, 4ull);
    memory_copy(m, l4 + 840ull, l4 + 1000ull, 104ull);
    i32_store16(m, l4, 568, 32896u);
    f5_Core256_update(m, l4 + 840ull, l4 + 568ull, 2ull);
    l7 = i32_load(m, l4, 960);
    l17 = i32_rotr(l7 & 0xff00ffu, 8) | (i32_rotr(l7, 24) & 0xff00ffu);
    l15 = (0xffffffffu << (((uint32_t)(0x8000400020001ull >> ((l40 << 4) & 63))) & 31)) ^ 0xffffffffu;
    p2 = i64_load(m, l40 << 3, CONSTANT(320));
    p1 = l4 + 568ull + 32ull;
    again15: LOOP();
        p3 = l5 + (l39 << 5);
        l8 = i32_load(m, p3, 28);
        l6 = i32_load(m, p3, 24);
        l9 = i32_load(m, p3, 20);
        l10 = i32_load(m, p3, 16);
        l11 = i32_load(m, p3, 12);
        l12 = i32_load(m, p3, 8);
        l13 = i32_load(m, p3, 4);
        l14 = i32_load(m, p3, 0);
        l7 = i32_load8_u(m, l4 + 271ull + l39, 0);
        if (l7 >= l15) goto after16;
        l16 = (uint32_t)l39;
        l16 = (l16 << 8) | ((l16 & 65280u) >> 8);
        again17: LOOP();
            i64_store(m, p1, 8, i64_load(m, l4, 952));
            i64_store(m, p1, 0, i64_load(m, l4, 944));
            i64_store(m, l4, 664, 64ull);
            i32_store8(m, l4, 655, 128u);
            i32_store(m, l4, 651, l8);
            i32_store(m, l4, 647, l6);
            i32_store(m, l4, 643, l9);
            i32_store(m, l4, 639, l10);
            i32_store(m, l4, 635, l11);
            i32_store(m, l4, 631, l12);
            i32_store(m, l4, 627, l13);
            i32_store(m, l4, 623, l14);
            i32_store16(m, l4, 620, l16);
            i32_store(m, l4, 616, l17);
            i64_store(m, l4, 592, 0x5be0cd191f83d9abull);
            i64_store(m, l4, 584, 0x9b05688c510e527full);
            i64_store(m, l4, 576, 0xa54ff53a3c6ef372ull);
            i64_store(m, l4, 568, 0xbb67ae856a09e667ull);
            i32_store8(m, l4, 622, l7);
            i64_store(m, l4, 656, 0xb801000000000000ull);
            COMPRESS(m, l4 + 568ull, p1);
            l8 = i32_load(m, l4, 596);
            l8 = i32_rotr(l8 & 0xff00ffu, 8) | (i32_rotr(l8, 24) & 0xff00ffu);
            l6 = i32_load(m, l4, 592);
            l6 = i32_rotr(l6 & 0xff00ffu, 8) | (i32_rotr(l6, 24) & 0xff00ffu);
            l9 = i32_load(m, l4, 588);
            l9 = i32_rotr(l9 & 0xff00ffu, 8) | (i32_rotr(l9, 24) & 0xff00ffu);
            l10 = i32_load(m, l4, 584);
            l10 = i32_rotr(l10 & 0xff00ffu, 8) | (i32_rotr(l10, 24) & 0xff00ffu);
            l11 = i32_load(m, l4, 580);
            l11 = i32_rotr(l11 & 0xff00ffu, 8) | (i32_rotr(l11, 24) & 0xff00ffu);
            l12 = i32_load(m, l4, 576);
            l12 = i32_rotr(l12 & 0xff00ffu, 8) | (i32_rotr(l12, 24) & 0xff00ffu);
            l13 = i32_load(m, l4, 572);
            l13 = i32_rotr(l13 & 0xff00ffu, 8) | (i32_rotr(l13, 24) & 0xff00ffu);
            l14 = i32_load(m, l4, 568);
            l14 = i32_rotr(l14 & 0xff00ffu, 8) | (i32_rotr(l14, 24) & 0xff00ffu);
            l7 = l7 + 1u;
            if ((l7 & 65535u) < l15) goto again17;
        after16:;
        i32_store(m, l4, 596, l8);
        i32_store(m, l4, 592, l6);
        i32_store(m, l4, 588, l9);
        i32_store(m, l4, 584, l10);
        i32_store(m, l4, 580, l11);
        i32_store(m, l4, 576, l12);
        i32_store(m, l4, 572, l13);
        i32_store(m, l4, 568, l14);
        f5_Core256_update(m, l4 + 840ull, l4 + 568ull, 32ull);
        l39 = l39 + 1ull;
        if (l39 != p2) goto again15;
    f6_Sha256Digest_finalize(m, l4 + 968ull, l4 + 840ull);
    p1 = i64_load(m, l4, 992);
    i64_store(m, l4, 560, p1);
    p3 = i64_load(m, l4, 984);
    i64_store(m, l4, 552, p3);
    l39 = i64_load(m, l4, 976);
    i64_store(m, l4, 544, l39);
    l5 = i64_load(m, l4, 968);
    i64_store(m, l4, 536, l5);
    i64_store(m, p0, 24, p1);
    i64_store(m, p0, 16, p3);
    i64_store(m, p0, 8, l39);
    i64_store(m, p0, 0, l5);
    m->stack_pointer = l4 + 1104ull;
    return;
    after0:;
    UNREACHABLE();
}

/* lms_verification::verification::is_root */
static uint32_t f8_verification_is_root(struct machine *m, uint64_t p0, uint64_t p1, uint32_t p2, uint64_t p3, uint64_t p4, uint64_t p5) {
    uint32_t l8 = 0, l9 = 0, l10 = 0, l11 = 0, l12 = 0, l13 = 0, l14 = 0, l15 = 0, l16 = 0, l17 = 0, l18 = 0, l19 = 0, l20 = 0, l21 = 0, l22 = 0, l23 = 0, l24 = 0, l25 = 0, l26 = 0, l27 = 0, l28 = 0, l29 = 0, l30 = 0, l31 = 0, l32 = 0, l33 = 0, l34 = 0, l35 = 0, l36 = 0, l37 = 0, l38 = 0, l39 = 0, l40 = 0, l41 = 0, l42 = 0, l43 = 0, l44 = 0, l45 = 0, l46 = 0, l47 = 0, l48 = 0, l49 = 0, l50 = 0, l51 = 0, l52 = 0, l53 = 0, l54 = 0, l55 = 0, l56 = 0, l57 = 0, l58 = 0, l59 = 0, l60 = 0, l61 = 0, l62 = 0, l63 = 0, l64 = 0, l65 = 0, l66 = 0, l67 = 0, l68 = 0, l69 = 0, l70 = 0;
    uint64_t l6 = 0, l7 = 0;
    l6 = m->stack_pointer - 288ull;
    m->stack_pointer = l6;
    if (i64_lt_s(l6, 16ull)) goto after0;
    i64_store(m, l6, 8, 0ull);
    i64_store(m, l6, 16, 0ull);
    i64_store(m, l6, 24, 0ull);
    i64_store(m, l6, 32, 0ull);
    l7 = l6 + 176ull + 32ull;
    memory_fill(m, l7, 0u, 72ull);
    i64_store(m, l6, 200, 0x5be0cd191f83d9abull);
    i64_store(m, l6, 192, 0x9b05688c510e527full);
    i64_store(m, l6, 184, 0xa54ff53a3c6ef372ull);
    i64_store(m, l6, 176, 0xbb67ae856a09e667ull);
    f5_Core256_update(m, l6 + 176ull, p0, 16ull);
    i32_store(m, l6, 40, i32_rotr(p2 & 0xff00ffu, 8) | (i32_rotr(p2, 24) & 0xff00ffu));
    f5_Core256_update(m, l6 + 176ull, l6 + 40ull, 4ull);
    memory_copy(m, l6 + 40ull, l6 + 176ull, 104ull);
    i32_store16(m, l6, 144, 33410u);
    f5_Core256_update(m, l6 + 40ull, l6 + 144ull, 2ull);
    f5_Core256_update(m, l6 + 40ull, p3, 32ull);
    f6_Sha256Digest_finalize(m, l6 + 8ull, l6 + 40ull);
    if (p5 == 0) goto after1;
    again2: LOOP(0);
        i64_store(m, l6, 144, 0ull);
        i64_store(m, l6, 152, 0ull);
        i64_store(m, l6, 160, 0ull);
        i64_store(m, l6, 168, 0ull);
        memory_fill(m, l7, 0u, 72ull);
        i64_store(m, l6, 200, 0x5be0cd191f83d9abull);
        i64_store(m, l6, 192, 0x9b05688c510e527full);
        i64_store(m, l6, 184, 0xa54ff53a3c6ef372ull);
        i64_store(m, l6, 176, 0xbb67ae856a09e667ull);
        f5_Core256_update(m, l6 + 176ull, p0, 16ull);
        l8 = p2 >> 1;
        i32_store(m, l6, 40, i32_rotr(l8 & 0xff00ffu, 8) | (i32_rotr(l8, 24) & 0xff007fu));
        f5_Core256_update(m, l6 + 176ull, l6 + 40ull, 4ull);
        memory_copy(m, l6 + 40ull, l6 + 176ull, 104ull);
        i32_store16(m, l6, 286, 33667u);
        f5_Core256_update(m, l6 + 40ull, l6 + 286ull, 2ull);
        p2 = p2 & 1u;
        f5_Core256_update(m, l6 + 40ull, p2 != 0 ? p4 : (l6 + 8ull), 32ull);
        f5_Core256_update(m, l6 + 40ull, p2 != 0 ? (l6 + 8ull) : p4, 32ull);
        f6_Sha256Digest_finalize(m, l6 + 144ull, l6 + 40ull);
        i64_store(m, l6, 32, i64_load(m, l6, 168));
        i64_store(m, l6, 24, i64_load(m, l6, 160));
        i64_store(m, l6, 16, i64_load(m, l6, 152));
        i64_store(m, l6, 8, i64_load(m, l6, 144));
        p4 = p4 + 32ull;
        p2 = l8;
        p5 = p5 - 1ull;
        if (p5 != 0ull) goto again2;
    after1:;
    p2 = i32_load8_u(m, p1 + 9ull, 0);
    l8 = i32_load8_u(m, l6, 17);
    l9 = i32_load8_u(m, p1 + 8ull, 0);
    l10 = i32_load8_u(m, l6, 16);
    l11 = i32_load8_u(m, p1 + 10ull, 0);
    l12 = i32_load8_u(m, l6, 18);
    l13 = i32_load8_u(m, p1 + 11ull, 0);
    l14 = i32_load8_u(m, l6, 19);
    l15 = i32_load8_u(m, p1 + 12ull, 0);
    l16 = i32_load8_u(m, l6, 20);
    l17 = i32_load8_u(m, p1 + 13ull, 0);
    l18 = i32_load8_u(m, l6, 21);
    l19 = i32_load8_u(m, p1 + 14ull, 0);
    l20 = i32_load8_u(m, l6, 22);
    l21 = i32_load8_u(m, p1 + 15ull, 0);
    l22 = i32_load8_u(m, l6, 23);
    l23 = i32_load8_u(m, p1, 0);
    l24 = i32_load8_u(m, l6, 8);
    l25 = i32_load8_u(m, p1 + 1ull, 0);
    l26 = i32_load8_u(m, l6, 9);
    l27 = i32_load8_u(m, p1 + 2ull, 0);
    l28 = i32_load8_u(m, l6, 10);
    l29 = i32_load8_u(m, p1 + 3ull, 0);
    l30 = i32_load8_u(m, l6, 11);
    l31 = i32_load8_u(m, p1 + 4ull, 0);
    l32 = i32_load8_u(m, l6, 12);
    l33 = i32_load8_u(m, p1 + 5ull, 0);
    l34 = i32_load8_u(m, l6, 13);
    l35 = i32_load8_u(m, p1 + 6ull, 0);
    l36 = i32_load8_u(m, l6, 14);
    l37 = i32_load8_u(m, p1 + 7ull, 0);
    l38 = i32_load8_u(m, l6, 15);
    l39 = i32_load8_u(m, p1 + 17ull, 0);
    l40 = i32_load8_u(m, l6, 25);
    l41 = i32_load8_u(m, p1 + 16ull, 0);
    l42 = i32_load8_u(m, l6, 24);
    l43 = i32_load8_u(m, p1 + 18ull, 0);
    l44 = i32_load8_u(m, l6, 26);
    l45 = i32_load8_u(m, p1 + 19ull, 0);
    l46 = i32_load8_u(m, l6, 27);
    l47 = i32_load8_u(m, p1 + 20ull, 0);
    l48 = i32_load8_u(m, l6, 28);
    l49 = i32_load8_u(m, p1 + 21ull, 0);
    l50 = i32_load8_u(m, l6, 29);
    l51 = i32_load8_u(m, p1 + 22ull, 0);
    l52 = i32_load8_u(m, l6, 30);
    l53 = i32_load8_u(m, p1 + 23ull, 0);
    l54 = i32_load8_u(m, l6, 31);
    l55 = i32_load8_u(m, p1 + 25ull, 0);
    l56 = i32_load8_u(m, l6, 33);
    l57 = i32_load8_u(m, p1 + 24ull, 0);
    l58 = i32_load8_u(m, l6, 32);
    l59 = i32_load8_u(m, p1 + 26ull, 0);
    l60 = i32_load8_u(m, l6, 34);
    l61 = i32_load8_u(m, p1 + 27ull, 0);
    l62 = i32_load8_u(m, l6, 35);
    l63 = i32_load8_u(m, p1 + 28ull, 0);
    l64 = i32_load8_u(m, l6, 36);
    l65 = i32_load8_u(m, p1 + 29ull, 0);
    l66 = i32_load8_u(m, l6, 37);
    l67 = i32_load8_u(m, p1 + 30ull, 0);
    l68 = i32_load8_u(m, l6, 38);
    l69 = i32_load8_u(m, p1 + 31ull, 0);
    l70 = i32_load8_u(m, l6, 39);
    m->stack_pointer = l6 + 288ull;
    return (((uint32_t)(l24 != l23) | (uint32_t)(l26 != l25) | (uint32_t)(l28 != l27) | (uint32_t)(l30 != l29) | (uint32_t)(l32 != l31) | (uint32_t)(l34 != l33) | (uint32_t)(l36 != l35) | (uint32_t)(l38 != l37) | ((uint32_t)(l10 != l9) | (uint32_t)(l8 != p2) | (uint32_t)(l12 != l11) | (uint32_t)(l14 != l13) | (uint32_t)(l16 != l15) | (uint32_t)(l18 != l17) | (uint32_t)(l20 != l19) | (uint32_t)(l22 != l21)) | ((uint32_t)(l42 != l41) | (uint32_t)(l40 != l39) | (uint32_t)(l44 != l43) | (uint32_t)(l46 != l45) | (uint32_t)(l48 != l47) | (uint32_t)(l50 != l49) | (uint32_t)(l52 != l51) | (uint32_t)(l54 != l53)) | ((uint32_t)(l58 != l57) | (uint32_t)(l56 != l55) | (uint32_t)(l60 != l59) | (uint32_t)(l62 != l61) | (uint32_t)(l64 != l63) | (uint32_t)(l66 != l65) | (uint32_t)(l68 != l67) | (uint32_t)(l70 != l69))) ^ 0xffffffffu) & 1u;
    after0:;
    UNREACHABLE(0);
}

/* lms_hss::verification::Verifier::begin::<#5e1ab67ffaa221ce> */
static void f3_Verifier_begin(struct machine *m, uint64_t p0, uint64_t p1, uint64_t p2, uint64_t p3, uint64_t p4) {
    uint32_t l6 = 0, l7 = 0, l8 = 0, l10 = 0, t0 = 0;
    uint64_t l5 = 0, l9 = 0, l11 = 0, l12 = 0, l13 = 0, l14 = 0, l15 = 0, l16 = 0;
    l5 = m->stack_pointer - 1184ull;
    m->stack_pointer = l5;
    if (i64_lt_s(l5, 16ull)) goto after5;
    memory_fill(m, l5 + 240ull, 0u, 72ull);
    memory_fill(m, l5, 0u, 240ull);
    if (p2 < 4ull) goto after4;
    if (p4 < 4ull) goto after3;
    l6 = i32_load(m, p1, 0);
    if (l6 == 0) goto after7;
    l6 = i32_rotr(l6 & 0xff00ffu, 8) | (i32_rotr(l6, 24) & 0xff00ffu);
    if (l6 > 8u) goto after7;
    l7 = i32_load(m, p3, 0);
    l8 = i32_rotr(l7 & 0xff00ffu, 8) | (i32_rotr(l7, 24) & 0xff00ffu);
    if (l8 == (l6 - 1u)) goto after6;
    after7:;
    memory_fill(m, p0, 0u, 240ull);
    goto after0;
    after6:;
    l9 = p2 - 4ull;
    if (l9 < 4ull) goto after2;
    if (l9 < 8ull) goto after2;
    if ((p2 - 12ull) < 16ull) goto after2;
    if (l9 != 56ull) goto after2;
    l6 = i32_load(m, p1 + 4ull, 0);
    l6 = (i32_rotr(l6 & 0xff00ffu, 8) | (i32_rotr(l6, 24) & 0xff00ffu)) - 5u;
    if (l6 > 4u) goto after2;
    l10 = i32_load(m, p1 + 8ull, 0);
    l10 = (i32_rotr(l10 & 0xff00ffu, 8) | (i32_rotr(l10, 24) & 0xff00ffu)) - 1u;
    if (l10 > 3u) goto after2;
    i32_store16(m, l5, 366, 0u);
    i32_store(m, l5, 362, 0u);
    i32_store8(m, l5, 313, l10);
    i32_store8(m, l5, 312, l6);
    l9 = p4 - 4ull;
    i64_store(m, l5, 376, l9);
    p3 = p3 + 4ull;
    i64_store(m, l5, 368, p3);
    p2 = p1 + 12ull;
    i64_store(m, l5, 314, i64_load(m, p2, 0));
    i64_store(m, l5, 322, i64_load(m, p2, 8));
    p2 = p1 + 28ull;
    i64_store(m, l5, 330, i64_load(m, p2, 0));
    i64_store(m, l5, 338, i64_load(m, p2, 8));
    i64_store(m, l5, 346, i64_load(m, p2, 16));
    i64_store(m, l5, 354, i64_load(m, p2, 24));
    if (l7 == 0) goto after8;
    p4 = l5 + 330ull;
    l11 = (l5 + 312ull) | 2ull;
    l12 = l5 + 904ull;
    l13 = l5 + 680ull;
    l14 = l5 + 704ull;
    l15 = l5 + 736ull;
    l16 = l5 + 392ull;
    again9: LOOP();
        p2 = ((((uint64_t)l6) & 255ull) * 160ull) + i64_load(m, (((uint64_t)l10) & 255ull) << 3, CONSTANT(352)) + 160ull;
        if (l9 < p2) goto after1;
        l9 = l9 - p2;
        if (l9 < 56ull) goto after1;
        memory_fill(m, l5 + 384ull, 0u, 240ull);
        f4_PublicKey_verifier(m, l5 + 384ull, l5 + 312ull, p3, p2);
        if (i32_load8_u(m, l5, 384) != 1u) goto after1;
        memory_copy(m, l5 + 624ull, l16, 232ull);
        p2 = p3 + p2;
        f5_Core256_update(m, l15, p2, 56ull);
        memory_copy(m, l5 + 888ull, l5 + 624ull, 232ull);
        i64_store(m, l5, 1152, 0ull);
        i64_store(m, l5, 1160, 0ull);
        i64_store(m, l5, 1168, 0ull);
        i64_store(m, l5, 1176, 0ull);
        i64_store(m, l5, 1120, 0ull);
        i64_store(m, l5, 1128, 0ull);
        i64_store(m, l5, 1136, 0ull);
        i64_store(m, l5, 1144, 0ull);
        f6_Sha256Digest_finalize(m, l5 + 1120ull, l15);
        f7_verification_candidate_by_hash(m, l5 + 1152ull, l14, l13, l5 + 1120ull);
        i64_store(m, l5, 856, i64_load(m, l5, 1152));
        i64_store(m, l5, 864, i64_load(m, l5, 1160));
        i64_store(m, l5, 872, i64_load(m, l5, 1168));
        i64_store(m, l5, 880, i64_load(m, l5, 1176));
        t0 = f8_verification_is_root(m, l5 + 888ull, l12, i32_load(m, l5, 936), l5 + 856ull, i64_load(m, l5, 1104), i64_load(m, l5, 1112));
        if (t0 == 0) goto after1;
        l6 = i32_load(m, p2, 0);
        l6 = (i32_rotr(l6 & 0xff00ffu, 8) | (i32_rotr(l6, 24) & 0xff00ffu)) - 5u;
        if (l6 > 4u) goto after1;
        l7 = i32_load(m, p2 + 4ull, 0);
        l10 = (i32_rotr(l7 & 0xff00ffu, 8) | (i32_rotr(l7, 24) & 0xff00ffu)) - 1u;
        if (l10 > 3u) goto after1;
        p1 = p2 + 8ull;
        i64_store(m, l11, 0, i64_load(m, p1, 0));
        i64_store(m, l11, 8, i64_load(m, p1, 8));
        p1 = p2 + 24ull;
        i64_store(m, p4, 0, i64_load(m, p1, 0));
        i64_store(m, p4, 8, i64_load(m, p1, 8));
        i64_store(m, p4, 16, i64_load(m, p1, 16));
        i64_store(m, p4, 24, i64_load(m, p1, 24));
        i32_store8(m, l5, 313, l10);
        i32_store8(m, l5, 312, l6);
        l9 = l9 - 56ull;
        i64_store(m, l5, 376, l9);
        p3 = p2 + 56ull;
        i64_store(m, l5, 368, p3);
        l8 = l8 - 1u;
        if (l8 != 0) goto again9;
    after8:;
    memory_copy(m, l5 + 240ull, l5 + 312ull, 72ull);
    f4_PublicKey_verifier(m, l5, l5 + 240ull, i64_load(m, l5, 296), i64_load(m, l5, 304));
    if (i32_load8_u(m, l5, 0) != 1u) goto after10;
    i64_store(m, p0, 0, 1ull);
    memory_copy(m, p0 + 8ull, l5 + 8ull, 232ull);
    goto after0;
    after10:;
    memory_fill(m, p0, 0u, 240ull);
    goto after0;
    after5:;
    UNREACHABLE();
    after4:;
    memory_fill(m, p0, 0u, 240ull);
    goto after0;
    after3:;
    memory_fill(m, p0, 0u, 240ull);
    goto after0;
    after2:;
    memory_fill(m, p0, 0u, 240ull);
    goto after0;
    after1:;
    memory_fill(m, p0, 0u, 240ull);
    after0:;
    m->stack_pointer = l5 + 1184ull;
}

/* rattle::export lms_message_head */
static uint32_t f11_rattle_export_lms_message_head(struct machine *m, uint64_t p0, uint64_t p1, uint64_t p2, uint64_t p3, uint64_t p4) {
    uint32_t l6 = 0, l7 = 0;
    uint64_t l5 = 0;
    l5 = m->stack_pointer - 272ull;
    m->stack_pointer = l5;
    if (i64_lt_s(l5, 16ull)) goto after0;
    memory_fill(m, l5 + 32ull, 0u, 240ull);
    f3_Verifier_begin(m, l5 + 32ull, p0 + (p0 == 0 ? 4096ull : 0ull), p1, p2 + (p2 == 0 ? 4096ull : 0ull), p3);
    l6 = i32_load8_u(m, l5, 32);
    if (l6 != 1u) goto after1;
    p2 = i64_load(m, l5, 128);
    p0 = i64_load(m, p2, 24);
    p3 = i64_load(m, p2, 16);
    p1 = i64_load(m, p2, 8);
    p2 = i64_load(m, p2, 0);
    i64_store(m, p4, 22, p2);
    i64_store(m, p4, 0, i64_load(m, l5, 96));
    i64_store(m, p4, 8, i64_load(m, l5, 104));
    i32_store16(m, p4, 20, 33153u);
    i64_store(m, p4, 30, p1);
    i64_store(m, p4, 38, p3);
    i64_store(m, p4, 46, p0);
    l7 = i32_load(m, l5, 112);
    i32_store(m, p4, 16, i32_rotr(l7 & 0xff00ffu, 8) | (i32_rotr(l7, 24) & 0xff00ffu));
    i64_store(m, l5, 0, p2);
    i64_store(m, l5, 8, p1);
    i64_store(m, l5, 16, p3);
    i64_store(m, l5, 24, p0);
    after1:;
    m->stack_pointer = l5 + 272ull;
    return (uint32_t)(l6 == 1u);
    after0:;
    UNREACHABLE(0);
}

/* lms_message_head */
static uint32_t f10_lms_message_head(struct machine *m, uint64_t p0, uint64_t p1, uint64_t p2, uint64_t p3, uint64_t p4) {
    uint32_t l5 = 0, t0 = 0, t1 = 0;
    t0 = f0_rattle_enter(m);
    if (t0 == 0) goto after0;
    f2_rattle_trap(m);
    UNREACHABLE(0);
    after0:;
    t1 = f11_rattle_export_lms_message_head(m, p0, p1, p2, p3, p4);
    l5 = t1;
    f1_rattle_leave(m);
    return l5;
}

/* rattle::export lms_verify */
static uint32_t f13_rattle_export_lms_verify(struct machine *m, uint64_t p0, uint64_t p1, uint64_t p2, uint64_t p3, uint64_t p4, uint64_t p5) {
    uint32_t l7 = 0, t0 = 0;
    uint64_t l6 = 0;
    l6 = m->stack_pointer - 800ull;
    m->stack_pointer = l6;
    if (i64_lt_s(l6, 16ull)) goto after0;
    l7 = 0u;
    memory_fill(m, l6, 0u, 240ull);
    f3_Verifier_begin(m, l6, p0 + (p0 == 0 ? 4096ull : 0ull), p1, p4 + (p4 == 0 ? 4096ull : 0ull), p5);
    if (i32_load8_u(m, l6, 0) != 1u) goto after1;
    memory_copy(m, l6 + 240ull, l6 + 8ull, 232ull);
    p4 = l6 + 352ull;
    f5_Core256_update(m, p4, p2 + (p2 == 0 ? 4096ull : 0ull), p3);
    memory_copy(m, l6 + 504ull, l6 + 240ull, 232ull);
    i64_store(m, l6, 768, 0ull);
    i64_store(m, l6, 776, 0ull);
    i64_store(m, l6, 784, 0ull);
    i64_store(m, l6, 792, 0ull);
    i64_store(m, l6, 736, 0ull);
    i64_store(m, l6, 744, 0ull);
    i64_store(m, l6, 752, 0ull);
    i64_store(m, l6, 760, 0ull);
    f6_Sha256Digest_finalize(m, l6 + 736ull, p4);
    f7_verification_candidate_by_hash(m, l6 + 768ull, l6 + 320ull, l6 + 296ull, l6 + 736ull);
    i64_store(m, l6, 472, i64_load(m, l6, 768));
    i64_store(m, l6, 480, i64_load(m, l6, 776));
    i64_store(m, l6, 488, i64_load(m, l6, 784));
    i64_store(m, l6, 496, i64_load(m, l6, 792));
    t0 = f8_verification_is_root(m, l6 + 504ull, l6 + 520ull, i32_load(m, l6, 552), l6 + 472ull, i64_load(m, l6, 720), i64_load(m, l6, 728));
    l7 = t0;
    after1:;
    m->stack_pointer = l6 + 800ull;
    return l7;
    after0:;
    UNREACHABLE(0);
}

/* lms_verify */
static uint32_t f12_lms_verify(struct machine *m, uint64_t p0, uint64_t p1, uint64_t p2, uint64_t p3, uint64_t p4, uint64_t p5) {
    uint32_t l6 = 0, t0 = 0, t1 = 0;
    t0 = f0_rattle_enter(m);
    if (t0 == 0) goto after0;
    f2_rattle_trap(m);
    UNREACHABLE(0);
    after0:;
    t1 = f13_rattle_export_lms_verify(m, p0, p1, p2, p3, p4, p5);
    l6 = t1;
    f1_rattle_leave(m);
    return l6;
}

/* rattle::export lms_verify_hash */
static uint32_t f15_rattle_export_lms_verify_hash(struct machine *m, uint64_t p0, uint64_t p1, uint64_t p2, uint64_t p3, uint64_t p4) {
    uint32_t l6 = 0, t0 = 0;
    uint64_t l5 = 0;
    l5 = m->stack_pointer - 544ull;
    m->stack_pointer = l5;
    if (i64_lt_s(l5, 16ull)) goto after0;
    l6 = 0u;
    memory_fill(m, l5 + 8ull, 0u, 240ull);
    f3_Verifier_begin(m, l5 + 8ull, p0 + (p0 == 0 ? 4096ull : 0ull), p1, p2 + (p2 == 0 ? 4096ull : 0ull), p3);
    if (i32_load8_u(m, l5, 8) != 1u) goto after1;
    memory_copy(m, l5 + 280ull, l5 + 16ull, 232ull);
    i64_store(m, l5, 536, 0ull);
    i64_store(m, l5, 528, 0ull);
    i64_store(m, l5, 520, 0ull);
    i64_store(m, l5, 512, 0ull);
    f7_verification_candidate_by_hash(m, l5 + 512ull, l5 + 96ull, l5 + 72ull, p4);
    i64_store(m, l5, 272, i64_load(m, l5, 536));
    i64_store(m, l5, 264, i64_load(m, l5, 528));
    i64_store(m, l5, 256, i64_load(m, l5, 520));
    i64_store(m, l5, 248, i64_load(m, l5, 512));
    t0 = f8_verification_is_root(m, l5 + 280ull, l5 + 296ull, i32_load(m, l5, 328), l5 + 248ull, i64_load(m, l5, 496), i64_load(m, l5, 504));
    l6 = t0;
    after1:;
    m->stack_pointer = l5 + 544ull;
    return l6;
    after0:;
    UNREACHABLE(0);
}

/* lms_verify_hash */
static uint32_t f14_lms_verify_hash(struct machine *m, uint64_t p0, uint64_t p1, uint64_t p2, uint64_t p3, uint64_t p4) {
    uint32_t l5 = 0, t0 = 0, t1 = 0;
    t0 = f0_rattle_enter(m);
    if (t0 == 0) goto after0;
    f2_rattle_trap(m);
    UNREACHABLE(0);
    after0:;
    t1 = f15_rattle_export_lms_verify_hash(m, p0, p1, p2, p3, p4);
    l5 = t1;
    f1_rattle_leave(m);
    return l5;
}

/* rattle::export lms_verify_pieces */
static uint32_t f17_rattle_export_lms_verify_pieces(struct machine *m, uint64_t p0, uint64_t p1, uint64_t p2, uint64_t p3, uint64_t p4, uint64_t p5) {
    uint32_t l7 = 0, t0 = 0;
    uint64_t l6 = 0;
    l6 = m->stack_pointer - 800ull;
    m->stack_pointer = l6;
    if (i64_lt_s(l6, 16ull)) goto after0;
    l7 = 0u;
    memory_fill(m, l6, 0u, 240ull);
    f3_Verifier_begin(m, l6, p0 + (p0 == 0 ? 4096ull : 0ull), p1, p4 + (p4 == 0 ? 4096ull : 0ull), p5);
    if (i32_load8_u(m, l6, 0) != 1u) goto after1;
    memory_copy(m, l6 + 240ull, l6 + 8ull, 232ull);
    if (p3 == 0) goto after2;
    p4 = p2 + (p2 == 0 ? 4096ull : 0ull);
    p0 = l6 + 352ull;
    again3: LOOP(0);
        f5_Core256_update(m, p0, i64_load_or_piece(m, p4, 0), i64_load_or_piece(m, p4 + 8ull, 0));
        p4 = p4 + 16ull;
        p3 = p3 - 1ull;
        if (p3 != 0ull) goto again3;
    after2:;
    memory_copy(m, l6 + 504ull, l6 + 240ull, 232ull);
    i64_store(m, l6, 768, 0ull);
    i64_store(m, l6, 776, 0ull);
    i64_store(m, l6, 784, 0ull);
    i64_store(m, l6, 792, 0ull);
    i64_store(m, l6, 736, 0ull);
    i64_store(m, l6, 744, 0ull);
    i64_store(m, l6, 752, 0ull);
    i64_store(m, l6, 760, 0ull);
    f6_Sha256Digest_finalize(m, l6 + 736ull, l6 + 352ull);
    f7_verification_candidate_by_hash(m, l6 + 768ull, l6 + 320ull, l6 + 296ull, l6 + 736ull);
    i64_store(m, l6, 472, i64_load_or_piece(m, l6, 768));
    i64_store(m, l6, 480, i64_load_or_piece(m, l6, 776));
    i64_store(m, l6, 488, i64_load_or_piece(m, l6, 784));
    i64_store(m, l6, 496, i64_load_or_piece(m, l6, 792));
    t0 = f8_verification_is_root(m, l6 + 504ull, l6 + 520ull, i32_load(m, l6, 552), l6 + 472ull, i64_load_or_piece(m, l6, 720), i64_load_or_piece(m, l6, 728));
    l7 = t0;
    after1:;
    m->stack_pointer = l6 + 800ull;
    return l7;
    after0:;
    UNREACHABLE(0);
}

/* lms_verify_pieces */
static uint32_t f16_lms_verify_pieces(struct machine *m, uint64_t p0, uint64_t p1, uint64_t p2, uint64_t p3, uint64_t p4, uint64_t p5) {
    uint32_t l6 = 0, t0 = 0, t1 = 0;
    t0 = f0_rattle_enter(m);
    if (t0 == 0) goto after0;
    f2_rattle_trap(m);
    UNREACHABLE(0);
    after0:;
    t1 = f17_rattle_export_lms_verify_pieces(m, p0, p1, p2, p3, p4, p5);
    l6 = t1;
    f1_rattle_leave(m);
    return l6;
}

/* ---- The calls. */

static void clear(struct machine *m) {
    memset(m, 0, sizeof *m);
    m->stack_pointer = STACK_TOP(m);
}

#ifdef LMS_COMPRESS
/* Whether the caller's compression does what the proved one does, with a fixed state and block. */
static bool is_compression(struct machine *m) {
    uint64_t one, other, block;
    uint32_t differ = 0;
    unsigned k;
    clear(m);
    one = m->stack_pointer -= 128;
    other = one + 32;
    block = one + 64;
    for (k = 0; k < 8; k++) {
        i32_store(m, one, 4 * k, 0x9e3779b9u * (k + 1));
        i32_store(m, other, 4 * k, 0x9e3779b9u * (k + 1));
    }
    for (k = 0; k < 64; k++) i32_store8(m, block, k, 37 * k + 11);
    PROVED_COMPRESS(m, one, block);
    compress_by_caller(m, other, block);
    for (k = 0; k < 8; k++) differ |= i32_load(m, one, 4 * k) ^ i32_load(m, other, 4 * k);
    return !m->trapped && differ == 0;
}

bool lms_compress_check(void) {
    struct machine m;
    return is_compression(&m);
}
#endif

static void begin(struct machine *m) {
#if defined LMS_COMPRESS && !defined LMS_COMPRESS_CHECKED
    bool is_checked = is_compression(m);
    clear(m);
    if (!is_checked) trap(m);
#else
    clear(m);
#endif
}

static bool end(const struct machine *m, uint32_t answer) {
    return answer == 1 && !m->trapped;
}

/* The address of bytes that the caller gave. */
static uint64_t given(struct machine *m, size_t k, const uint8_t *bytes, size_t len) {
#ifdef LMS_CHECK_CALLER
    m->given[k].bytes = bytes;
    m->given[k].len = len;
#else
    (void)m;
    (void)k;
    (void)len;
#endif
    return address_of(bytes);
}

bool lms_verify(const uint8_t *public_key, size_t public_key_len,
                const uint8_t *message, size_t message_len,
                const uint8_t *signature, size_t signature_len) {
    struct machine m;
    begin(&m);
    return end(&m, f12_lms_verify(&m,
        given(&m, 0, public_key, public_key_len), public_key_len,
        given(&m, 1, message, message_len), message_len,
        given(&m, 2, signature, signature_len), signature_len));
}

bool lms_verify_pieces(const uint8_t *public_key, size_t public_key_len,
                       const struct lms_piece *pieces, size_t piece_count,
                       const uint8_t *signature, size_t signature_len) {
    struct machine m;
    begin(&m);
    m.pieces = pieces;
    m.piece_count = piece_count;
    return end(&m, f16_lms_verify_pieces(&m,
        given(&m, 0, public_key, public_key_len), public_key_len,
        PIECES, piece_count,
        given(&m, 2, signature, signature_len), signature_len));
}

/* The module writes the head to the top of its stack, as if its caller had a place for it there.
 * From there it is copied, so that no other of the caller's bytes is ever written. */
bool lms_message_head(const uint8_t *public_key, size_t public_key_len,
                      const uint8_t *signature, size_t signature_len,
                      uint8_t head[LMS_MESSAGE_HEAD_LEN]) {
    struct machine m;
    uint64_t place;
    const uint8_t *found;
    begin(&m);
    place = m.stack_pointer -= 64;
    if (!end(&m, f10_lms_message_head(&m,
        given(&m, 0, public_key, public_key_len), public_key_len,
        given(&m, 2, signature, signature_len), signature_len, place))) return false;
    if (!readable(&m, ADDRESS(&m, place, 0), LMS_MESSAGE_HEAD_LEN, &found)) return false;
    memmove(head, found, LMS_MESSAGE_HEAD_LEN);
    return true;
}

bool lms_verify_hash(const uint8_t *public_key, size_t public_key_len,
                     const uint8_t *signature, size_t signature_len,
                     const uint8_t hash[LMS_HASH_LEN]) {
    struct machine m;
    begin(&m);
    return end(&m, f14_lms_verify_hash(&m,
        given(&m, 0, public_key, public_key_len), public_key_len,
        given(&m, 2, signature, signature_len), signature_len,
        given(&m, 1, hash, LMS_HASH_LEN)));
}
