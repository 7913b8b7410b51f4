/* The board, for loader and application: mps2-an385, with a Cortex-M3, as qemu has it. */
#ifndef BOARD_H
#define BOARD_H

#include <stddef.h>
#include <stdint.h>

/* Where images lie, in memory that nothing writes while the loader runs. */
enum { SLOTS = 2, SLOT_LEN = 0x100000 };
static const uint8_t *const slots[SLOTS] = {(const uint8_t *)0x100000, (const uint8_t *)0x200000};

/* What outlasts a reset, and an application can't set back: fuses or a counter of the board's. Here
 * it is plain memory. Key k is refused where bit k is set. */
struct kept {
    uint32_t least_version, refused_keys;
};
static volatile struct kept *const kept = (volatile struct kept *)0x20300000;

void say(const char *text);
void say_number(uint32_t number);

/* Starts the program whose vectors these are. */
_Noreturn void start_at(const uint8_t *vectors);

_Noreturn void reset(void);

#endif
