/* The calling thread's errno. */
#include "rattle.h"

#include <errno.h>

int rattle_errno(void) {
    return errno;
}

void rattle_set_errno(int error) {
    errno = error;
}
