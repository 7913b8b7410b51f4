/* The arguments with which the program was started. */
#include "rattle.h"

#include <string.h>

/* (uClibc says that it is glibc, too.) */
#if !defined __GLIBC__ || defined __UCLIBC__
#error "no other C library is known to hand the arguments to a constructor"
#endif

enum { MISSING = -1, TOO_LONG = -2 };

static size_t argument_count;
static char **arguments;

/* glibc calls this before `main`, and hands it what `main` gets. */
__attribute__((constructor)) static void note_arguments(int number, char **handed) {
    argument_count = (size_t)number;
    arguments = handed;
}

ptrdiff_t rattle_arg(size_t index, unsigned char *buffer, size_t room) {
    if (index >= argument_count) {
        return MISSING;
    }
    size_t length = strlen(arguments[index]);
    memcpy(buffer, arguments[index], length < room ? length : room);
    return length <= room ? (ptrdiff_t)length : TOO_LONG;
}
