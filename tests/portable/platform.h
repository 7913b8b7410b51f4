/* What a test program asks of its platform. */
#ifndef PLATFORM_H
#define PLATFORM_H

#include <stddef.h>
#include <stdint.h>

/* Prints a text. */
void say(const char *text);

/* Ends the program. */
_Noreturn void stop(int status);

/* The instructions until now, modulo 2^32, or of another clock, or 0 where nothing counts. */
uint32_t counted(void);

/* The lowest byte of the stack, or null where it can't be measured. */
extern uint8_t *const stack_lowest;

#endif
