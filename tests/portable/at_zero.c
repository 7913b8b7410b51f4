/* Prints the answers on vectors of vectors.h, with each of their parts at address 0 in turn, as
 * flash is on many microcontrollers. (For an emulator that has memory there.) */
#define _GNU_SOURCE
#include "judge.h"
#include "vectors.h"
#include <sys/mman.h>

/* (Programs for ARM begin right above.) */
enum { PAGES = 1 << 16 };

static uint8_t *volatile zero;

int main(void) {
    uint8_t *at = zero;
    int how = MAP_PRIVATE | MAP_ANONYMOUS | MAP_FIXED;
    if (mmap(at, PAGES, PROT_READ | PROT_WRITE, how, -1, 0) != at) {
        say("nothing can be put at address 0\n");
        stop(2);
    }
    for (size_t k = 0; k < sizeof vectors / sizeof *vectors; k++) {
        for (size_t part = 0; part < 3; part++) {
            struct vector vector = vectors[k];
            volatile uint8_t *to = zero;
            for (size_t i = 0; i < vector.parts[part].len; i++) to[i] = vector.parts[part].at[i];
            vector.parts[part].at = zero;
            judge(vector.name, vector.parts[0], vector.parts[1], vector.parts[2]);
        }
    }
    stop(0);
}
