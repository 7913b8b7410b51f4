/* The heap, by that of the C library. */
#include "rattle.h"

#include <stdlib.h>

/* An alignment divides 16, and malloc aligns each block for any type. */
_Static_assert(_Alignof(max_align_t) % 16 == 0, "malloc aligns to 16 bytes");

/* Its address stands beside a refusal. Nobody reads or writes it. */
static unsigned char nowhere;

static struct tried answer(void *block) {
    return (struct tried){block != NULL, block != NULL ? block : &nowhere};
}

/* How many bytes are asked for: to no bytes the C library may answer null, which is no refusal then. */
static size_t asked(size_t bytes, size_t alignment) {
    return bytes != 0 ? bytes : alignment;
}

struct tried rattle_alloc(size_t bytes, size_t alignment) {
    return answer(malloc(asked(bytes, alignment)));
}

/* `kept` is no more than the old block or the new one has, so realloc keeps as much. */
struct tried rattle_realloc(void *block, size_t kept, size_t bytes, size_t alignment) {
    (void)kept;
    return answer(realloc(block, asked(bytes, alignment)));
}

void rattle_dealloc(void *block) {
    free(block);
}
