/* The C functions that the program asks for beside the C library, as the toolchain's crates `libc` and
   `os` declare them. README.md has the contract of each. */
#ifndef RATTLE_H
#define RATTLE_H

#include <stdbool.h>
#include <stddef.h>

/* Whether there is memory, and where it begins. */
struct tried {
    bool ok;
    void *block;
};

struct tried rattle_alloc(size_t bytes, size_t alignment);
struct tried rattle_realloc(void *block, size_t kept, size_t bytes, size_t alignment);
void rattle_dealloc(void *block);

int rattle_errno(void);
void rattle_set_errno(int error);

ptrdiff_t rattle_arg(size_t index, unsigned char *buffer, size_t room);

_Static_assert(sizeof(size_t) == 8 && sizeof(ptrdiff_t) == 8, "usize and isize have 64 bits");
_Static_assert(sizeof(void *) == 8 && sizeof(int) == 4 && sizeof(bool) == 1, "*mut u8, i32 and bool");

#endif
