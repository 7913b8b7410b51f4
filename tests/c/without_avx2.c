// Runs a program of one thread as on a processor without AVX2: `without_avx2 PROGRAM
// [ARGUMENT...]`. Each CPUID instruction of the program stops it, and is answered here with what
// the processor says, but for the bit of AVX2. Ends with the program's status, or 128 and the
// number of the signal that ended it; with 99 where this can't be done, and the program is killed
// then.
#include <cpuid.h>
#include <errno.h>
#include <signal.h>
#include <stdio.h>
#include <stdlib.h>
#include <sys/ptrace.h>
#include <sys/syscall.h>
#include <sys/user.h>
#include <sys/wait.h>
#include <unistd.h>

#define ARCH_SET_CPUID 0x1012

static void fail(const char *what) {
    perror(what);
    exit(99);
}

static void check(long result, const char *what) {
    if (result < 0)
        fail(what);
}

// The two bytes at an address of the program, the first one lowest.
static unsigned bytes_at(pid_t child, unsigned long long address) {
    errno = 0;
    long word = ptrace(PTRACE_PEEKTEXT, child, address, 0);
    return errno ? 0 : word & 0xffff;
}

// Has the program, which is at its first instruction, make the call that lets CPUID stop it.
static void stop_at_cpuid(pid_t child) {
    struct user_regs_struct saved, call;
    check(ptrace(PTRACE_GETREGS, child, 0, &saved), "registers");
    errno = 0;
    long word = ptrace(PTRACE_PEEKTEXT, child, saved.rip, 0);
    if (errno)
        fail("first instruction");
    call = saved;
    call.rax = SYS_arch_prctl;
    call.rdi = ARCH_SET_CPUID;
    call.rsi = 0;
    long syscall_instruction = (word & ~0xffffL) | 0x050f;
    check(ptrace(PTRACE_POKETEXT, child, saved.rip, syscall_instruction), "call");
    check(ptrace(PTRACE_SETREGS, child, 0, &call), "registers");
    check(ptrace(PTRACE_SINGLESTEP, child, 0, 0), "step");
    int status;
    check(waitpid(child, &status, 0), "wait");
    if (!WIFSTOPPED(status) || WSTOPSIG(status) != SIGTRAP) {
        fprintf(stderr, "the program did not make a step\n");
        exit(99);
    }
    check(ptrace(PTRACE_GETREGS, child, 0, &call), "registers");
    if (call.rax != 0) {
        fprintf(stderr, "CPUID can't be stopped here\n");
        exit(99);
    }
    check(ptrace(PTRACE_POKETEXT, child, saved.rip, word), "first instruction");
    check(ptrace(PTRACE_SETREGS, child, 0, &saved), "registers");
}

// Whether the program is at a CPUID, which is answered then.
static int answered(pid_t child) {
    struct user_regs_struct regs;
    check(ptrace(PTRACE_GETREGS, child, 0, &regs), "registers");
    if (bytes_at(child, regs.rip) != 0xa20f)
        return 0;
    unsigned leaf = regs.rax, part = regs.rcx, a, b, c, d;
    __cpuid_count(leaf, part, a, b, c, d);
    if (leaf == 7 && part == 0)
        b &= ~(unsigned)bit_AVX2;
    regs.rax = a;
    regs.rbx = b;
    regs.rcx = c;
    regs.rdx = d;
    regs.rip += 2;
    check(ptrace(PTRACE_SETREGS, child, 0, &regs), "registers");
    return 1;
}

int main(int count, char **words) {
    if (count < 2) {
        fprintf(stderr, "usage: without_avx2 PROGRAM [ARGUMENT...]\n");
        return 99;
    }
    pid_t child = fork();
    check(child, "fork");
    if (child == 0) {
        check(ptrace(PTRACE_TRACEME, 0, 0, 0), "trace");
        execv(words[1], words + 1);
        fail(words[1]);
    }
    int status;
    check(waitpid(child, &status, 0), "wait");
    if (!WIFSTOPPED(status))
        return 99;
    if (ptrace(PTRACE_SETOPTIONS, child, 0, PTRACE_O_EXITKILL) < 0) {
        kill(child, SIGKILL);
        fail("options");
    }
    stop_at_cpuid(child);
    long sent = 0;
    for (;;) {
        check(ptrace(PTRACE_CONT, child, 0, sent), "go on");
        check(waitpid(child, &status, 0), "wait");
        if (WIFEXITED(status))
            return WEXITSTATUS(status);
        if (WIFSIGNALED(status))
            return 128 + WTERMSIG(status);
        sent = WSTOPSIG(status);
        if (sent == SIGSEGV && answered(child))
            sent = 0;
    }
}
