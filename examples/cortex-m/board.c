/* Start, output and the functions of memory that compilers and the verifier ask for. */
#include "board.h"

#define UART ((volatile uint32_t *)0x40004000)
enum { UART_DATA = 0, UART_STATE = 1, UART_CONTROL = 2, UART_DIVISOR = 4, IS_FULL = 1, SENDS = 1 };

#define VECTORS_AT (*(volatile uint32_t *)0xe000ed08)
#define RESET_CONTROL (*(volatile uint32_t *)0xe000ed0c)
enum { RESETS = 0x05fa0004 };

int main(void);
_Noreturn void start(void);
_Noreturn void fault(void);
void *memcpy(void *to, const void *from, size_t len);
void *memmove(void *to, const void *from, size_t len);
void *memset(void *to, int byte, size_t len);

extern const uint8_t data_from[];
extern uint8_t data_begin[], data_end[], zeros_begin[], zeros_end[], stack_top[];

__attribute__((section(".vectors"), used)) static const struct {
    uint8_t *stack;
    void (*handlers[15])(void);
} vectors = {
    stack_top,
    {start, fault, fault, fault, fault, fault, 0, 0, 0, 0, fault, fault, 0, fault, fault},
};

_Noreturn void start(void) {
    memcpy(data_begin, data_from, (size_t)(data_end - data_begin));
    memset(zeros_begin, 0, (size_t)(zeros_end - zeros_begin));
    UART[UART_DIVISOR] = 16;
    UART[UART_CONTROL] = SENDS;
    main();
    reset();
}

_Noreturn void fault(void) {
    say("a fault of the processor\n");
    reset();
}

_Noreturn void start_at(const uint8_t *at) {
    const uint32_t *words = (const uint32_t *)at;
    VECTORS_AT = (uint32_t)at;
    __asm__ volatile("dsb\nmsr msp, %0\nbx %1" : : "r"(words[0]), "r"(words[1]) : "memory");
    __builtin_unreachable();
}

_Noreturn void reset(void) {
    RESET_CONTROL = RESETS;
    for (;;) {}
}

void say(const char *text) {
    for (; *text; text++) {
        while (UART[UART_STATE] & IS_FULL) {}
        UART[UART_DATA] = (uint8_t)*text;
    }
}

void say_number(uint32_t number) {
    char text[11];
    char *at = text + sizeof text - 1;
    *at = 0;
    do *--at = (char)('0' + number % 10);
    while ((number /= 10) > 0);
    say(at);
}

void *memcpy(void *to, const void *from, size_t len) {
    uint8_t *out = to;
    const uint8_t *in = from;
    for (size_t k = 0; k < len; k++) out[k] = in[k];
    return to;
}

void *memmove(void *to, const void *from, size_t len) {
    uint8_t *out = to;
    const uint8_t *in = from;
    if ((uintptr_t)to <= (uintptr_t)from) return memcpy(to, from, len);
    for (size_t k = len; k > 0; k--) out[k - 1] = in[k - 1];
    return to;
}

void *memset(void *to, int byte, size_t len) {
    uint8_t *out = to;
    for (size_t k = 0; k < len; k++) out[k] = (uint8_t)byte;
    return to;
}
