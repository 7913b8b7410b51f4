/* Types as U-Boot and Linux have them, which have no stdint.h, or an empty one, and no UINTPTR_MAX;
 * inline and noinline are macros there. */
#ifndef LINUX_TYPES_H
#define LINUX_TYPES_H

#define inline inline __attribute__((__always_inline__))
#define noinline __attribute__((__noinline__))

typedef _Bool bool;
enum { false, true };

typedef __SIZE_TYPE__ size_t;
typedef unsigned long uintptr_t;
typedef unsigned char uint8_t;
typedef unsigned int uint32_t;
typedef unsigned long long uint64_t;

#endif
