/* The platform of a 32-bit processor with nothing beside it, under qemu: a start, the functions of
 * memory that compilers ask for, semihosting, and a counter, of instructions with -icount. */
#include "platform.h"

enum { WRITE0 = 4, EXIT = 0x18, EXIT_EXTENDED = 0x20, APPLICATION_EXIT = 0x20026 };

int main(void);
_Noreturn void start(void);
_Noreturn void fault(void);
void *memcpy(void *to, const void *from, size_t len);
void *memmove(void *to, const void *from, size_t len);
void *memset(void *to, int byte, size_t len);

extern uint8_t zeros_begin[], zeros_end[], stack_top[];
uint8_t *const stack_lowest = zeros_end;

void *memcpy(void *to, const void *from, size_t len) {
    uint8_t *out = to;
    const uint8_t *in = from;
    for (size_t k = 0; k < len; k++) out[k] = in[k];
    return to;
}

void *memmove(void *to, const void *from, size_t len) {
    uint8_t *out = to;
    const uint8_t *in = from;
    if ((uintptr_t)to <= (uintptr_t)from) return memcpy(to, from, len);
    for (size_t k = len; k > 0; k--) out[k - 1] = in[k - 1];
    return to;
}

void *memset(void *to, int byte, size_t len) {
    uint8_t *out = to;
    for (size_t k = 0; k < len; k++) out[k] = (uint8_t)byte;
    return to;
}

#if defined __arm__ && __ARM_ARCH_PROFILE == 'A'

__attribute__((noinline)) static void host(uintptr_t what, const void *with) {
    register uintptr_t r0 __asm__("r0") = what;
    register const void *r1 __asm__("r1") = with;
    __asm__ volatile("svc 0x123456" : "+r"(r0) : "r"(r1) : "memory");
}

/* Each exception has a stack of its own, which is not set. */
__attribute__((naked, used)) void raised(void) {
    __asm__ volatile("ldr sp, =stack_top\nb fault");
}

__attribute__((naked, aligned(32), used)) void exceptions(void) {
    __asm__ volatile(".rept 8\nb raised\n.endr");
}

__attribute__((naked, section(".vectors"), used)) void reset(void) {
    __asm__ volatile("ldr r0, =exceptions\nmcr p15, 0, r0, c12, c0, 0\nldr sp, =stack_top\nb start");
}

/* The counter of cycles, which are instructions with -icount shift=0. */
uint32_t counted(void) {
    uint32_t cycles;
    __asm__ volatile("mrc p15, 0, %0, c9, c13, 0" : "=r"(cycles));
    return cycles;
}

static void begin_counting(void) {
    __asm__ volatile("mcr p15, 0, %0, c9, c12, 1" : : "r"((uint32_t)1 << 31));
    __asm__ volatile("mcr p15, 0, %0, c9, c12, 0" : : "r"(5));
}

#elif defined __arm__

static void host(uintptr_t what, const void *with) {
    register uintptr_t r0 __asm__("r0") = what;
    register const void *r1 __asm__("r1") = with;
    __asm__ volatile("bkpt 0xab" : "+r"(r0) : "r"(r1) : "memory");
}

__attribute__((section(".vectors"), used)) static const struct {
    uint8_t *stack;
    void (*handlers[15])(void);
} vectors = {
    stack_top,
    {start, fault, fault, fault, fault, fault, 0, 0, 0, 0, fault, fault, 0, fault, fault},
};

/* SysTick counts down from 2^24 - 1, at each TICK-th instruction where -icount takes one for a
 * nanosecond. */
#define SYSTICK ((volatile uint32_t *)0xe000e010)
#ifndef TICK
#define TICK 1
#endif

uint32_t counted(void) {
    return (uint32_t)((0xffffff - SYSTICK[2]) * TICK);
}

static void begin_counting(void) {
    SYSTICK[1] = 0xffffff;
    SYSTICK[2] = 0;
    (void)SYSTICK[0];
    SYSTICK[0] = 5;
}

#else

__attribute__((noinline, aligned(16))) static void host(uintptr_t what, const void *with) {
    register uintptr_t a0 __asm__("a0") = what;
    register const void *a1 __asm__("a1") = with;
    __asm__ volatile(".option push\n.option norvc\n.option norelax\n.balign 4\n"
                     "slli x0, x0, 0x1f\nebreak\nsrai x0, x0, 7\n.option pop"
                     : "+r"(a0) : "r"(a1) : "memory");
}

__attribute__((naked, section(".vectors"), used)) void reset(void) {
    __asm__ volatile(".option arch, +zicsr\nla sp, stack_top\n"
                     "la t0, fault\ncsrw mtvec, t0\nj start");
}

uint32_t counted(void) {
    uint32_t instructions;
    __asm__ volatile(".option push\n.option arch, +zicsr\ncsrr %0, minstret\n.option pop"
                     : "=r"(instructions));
    return instructions;
}

static void begin_counting(void) {}

#endif

__attribute__((aligned(4))) _Noreturn void fault(void) {
    say("a fault of the processor\n");
    stop(9);
}

_Noreturn void start(void) {
    for (volatile uint8_t *p = zeros_begin; p < zeros_end; p++) *p = 0;
    begin_counting();
    stop(main());
}

void say(const char *text) {
    host(WRITE0, text);
}

_Noreturn void stop(int status) {
    uintptr_t words[2] = {APPLICATION_EXIT, (uintptr_t)status};
    host(EXIT_EXTENDED, words);
    host(EXIT, (const void *)APPLICATION_EXIT);
    for (;;) {}
}
