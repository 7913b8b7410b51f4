/* Loaded before a program for x86-64, has the processor stop after each instruction, and counts these in
   the file COUNTED, which has eight bytes for the number. The program has one thread, starts no other
   program, and blocks no signals. */
#define _GNU_SOURCE
#include <fcntl.h>
#include <signal.h>
#include <stdlib.h>
#include <sys/mman.h>
#include <unistd.h>

static unsigned long *counted;

static void count(int signal) {
    (void)signal;
    ++*counted;
}

__attribute__((constructor)) static void begin(void) {
    const char *name = getenv("COUNTED");
    int file = name ? open(name, O_RDWR) : -1;
    struct sigaction action = {.sa_handler = count};
    counted = mmap(NULL, sizeof *counted, PROT_READ | PROT_WRITE, MAP_SHARED, file, 0);
    if (counted == MAP_FAILED || sigaction(SIGTRAP, &action, NULL)) {
        abort();
    }
    close(file);
    /* The trap flag, put on below the 128 bytes that the compiler may use under the stack pointer. */
    __asm__ volatile("lea -128(%%rsp), %%rsp; pushfq; orq $0x100, (%%rsp); popfq; lea 128(%%rsp), %%rsp" ::: "memory", "cc");
}
