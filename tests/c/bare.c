/* bare PUBLIC MESSAGE SIGNATURE, linked with no C library: the verifier, the three functions that
 * compilers ask for, and Linux's system calls. Verifies whole, in two pieces and by a hash, and
 * prints the verdict where all agree. */
#include "lms.h"
#include "sha256.h"

void *memcpy(void *to, const void *from, size_t len);
void *memmove(void *to, const void *from, size_t len);
void *memset(void *to, int byte, size_t len);
void start(char **stack);

/* The loops are volatile, so that no compiler makes calls of these very functions of them. */
void *memcpy(void *to, const void *from, size_t len) {
    volatile uint8_t *out = to;
    const uint8_t *in = from;
    for (size_t i = 0; i < len; i++) out[i] = in[i];
    return to;
}

void *memmove(void *to, const void *from, size_t len) {
    volatile uint8_t *out = to;
    const uint8_t *in = from;
    if ((uintptr_t)to <= (uintptr_t)from) return memcpy(to, from, len);
    for (size_t i = len; i > 0; i--) out[i - 1] = in[i - 1];
    return to;
}

void *memset(void *to, int byte, size_t len) {
    volatile uint8_t *out = to;
    for (size_t i = 0; i < len; i++) out[i] = (uint8_t)byte;
    return to;
}

#if defined __aarch64__
enum { OPENAT = 56, READ = 63, WRITE = 64, LEAVE = 93 };
__asm__(".globl _start\n_start:\n mov x0, sp\n bl start\n");
static long call(long number, long a, long b, long c, long d) {
    register long x8 __asm__("x8") = number;
    register long x0 __asm__("x0") = a;
    register long x1 __asm__("x1") = b;
    register long x2 __asm__("x2") = c;
    register long x3 __asm__("x3") = d;
    __asm__ volatile("svc 0" : "+r"(x0) : "r"(x8), "r"(x1), "r"(x2), "r"(x3) : "memory");
    return x0;
}
#else
enum { OPENAT = 257, READ = 0, WRITE = 1, LEAVE = 60 };
__asm__(".globl _start\n_start:\n mov %rsp, %rdi\n call start\n");
static long call(long number, long a, long b, long c, long d) {
    register long r10 __asm__("r10") = d;
    long answer;
    __asm__ volatile("syscall" : "=a"(answer) : "a"(number), "D"(a), "S"(b), "d"(c), "r"(r10) : "rcx", "r11", "memory");
    return answer;
}
#endif

static uint8_t texts[3][1 << 17];

static size_t read_file(const char *name, uint8_t *bytes) {
    long file = call(OPENAT, -100, (long)name, 0, 0);
    if (file < 0) call(LEAVE, 2, 0, 0, 0);
    for (size_t len = 0;;) {
        long got = call(READ, file, (long)(bytes + len), (long)(sizeof texts[0] - len), 0);
        if (got < 0) call(LEAVE, 2, 0, 0, 0);
        if (got == 0) return len;
        len += (size_t)got;
    }
}

static bool by_hash(size_t key, size_t message, size_t signature) {
    uint8_t head[LMS_MESSAGE_HEAD_LEN], digest[LMS_HASH_LEN];
    struct sha256 hash;
    if (!lms_message_head(texts[0], key, texts[2], signature, head)) return false;
    sha256_begin(&hash);
    sha256_update(&hash, head, sizeof head);
    sha256_update(&hash, texts[1], message);
    sha256_finish(&hash, digest);
    return lms_verify_hash(texts[0], key, texts[2], signature, digest);
}

void start(char **stack) {
    char **argv = stack + 1;
    size_t key = read_file(argv[1], texts[0]), message = read_file(argv[2], texts[1]);
    size_t signature = read_file(argv[3], texts[2]);
    bool whole = lms_verify(texts[0], key, texts[1], message, texts[2], signature);
    struct lms_piece pieces[2] = {{texts[1], message / 2}, {texts[1] + message / 2, message - message / 2}};
    bool joined = lms_verify_pieces(texts[0], key, pieces, 2, texts[2], signature);
    if (whole != joined || whole != by_hash(key, message, signature)) call(LEAVE, 3, 0, 0, 0);
    if (whole) call(WRITE, 1, (long)"valid\n", 6, 0);
    else call(WRITE, 1, (long)"invalid\n", 8, 0);
    call(LEAVE, !whole, 0, 0, 0);
}
