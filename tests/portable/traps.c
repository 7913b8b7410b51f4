/* Prints for each vector of vectors.h what the four calls answer, and how often each of them
 * trapped. changed.c is the portable file, changed so that it traps. */
static int traps;
#define LMS_TRAP() (traps++)
#include "changed.c"
#include "judge.h"
#include "vectors.h"

/* The digit of a number of traps, which begins anew. */
static char trapped(void) {
    char digit = (char)('0' + traps);
    traps = 0;
    return digit;
}

int main(void) {
    (void)changes;
    for (size_t k = 0; k < sizeof vectors / sizeof *vectors; k++) {
        const struct bytes *p = vectors[k].parts;
        uint8_t head[LMS_MESSAGE_HEAD_LEN], digest[LMS_HASH_LEN];
        char text[10] = "0000 0000";
        text[0] += lms_verify(p[0].at, p[0].len, p[1].at, p[1].len, p[2].at, p[2].len);
        text[5] = trapped();
        text[1] += by_pieces(p[0], p[1], p[2]);
        text[6] = trapped();
        text[2] += make_head(p[0], p[1], p[2], head, digest);
        text[7] = trapped();
        text[3] += lms_verify_hash(p[0].at, p[0].len, p[2].at, p[2].len, digest);
        text[8] = trapped();
        say(vectors[k].name);
        say(" ");
        say(text);
        say("\n");
    }
    stop(0);
}
