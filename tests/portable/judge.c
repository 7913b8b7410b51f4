/* Prints the answers on the keys, messages and signatures of vectors.h, as they are and changed;
 * then, where it can be measured, stack and instructions of a call on the first ones. Each is read
 * where it lies, in flash on a board; of what is changed one part is copied. */
#include "judge.h"
#include "vectors.h"

/* One of two levels and more takes the most stack. */
#ifndef MEASURED
#define MEASURED 2
#endif

static struct bytes bytes_of(struct bytes part) {
    if (part.len == 0) part.at = 0;
    return part;
}

static void judge_vector(const struct vector *vector) {
    const struct bytes *parts = vector->parts;
    judge(vector->name, bytes_of(parts[0]), bytes_of(parts[1]), bytes_of(parts[2]));
}

static void judge_change(const struct change *change) {
    static uint8_t copy[LONGEST_CHANGED + 1];
    struct vector vector = vectors[change->vector];
    struct bytes *part = vector.parts + change->part;
    if (part->len > LONGEST_CHANGED) stop(8);
    for (size_t k = 0; k < part->len; k++) copy[k] = part->at[k];
    copy[part->len] = 0;
    part->at = copy;
    if (change->turned) copy[change->at] ^= change->turned;
    else part->len = change->at;
    judge_vector(&vector);
}

/* The stack is painted before a call, and looked at after it. A little below the frame is left as
 * it is, since painting has a frame, too. */
__attribute__((noinline)) static void paint(void) {
    uint8_t *end = (uint8_t *)__builtin_frame_address(0) - 64;
    for (volatile uint8_t *p = stack_lowest; p < end; p++) *p = 0xa5;
}

__attribute__((noinline)) static size_t painted_over(const uint8_t *frame) {
    const volatile uint8_t *p = stack_lowest;
    while (p < frame && *p == 0xa5) p++;
    return (size_t)(frame - p);
}

/* The stack and the instructions of an lms_verify, with its caller's frame. */
__attribute__((noinline))
static size_t measure(const struct vector *vector, uint32_t *instructions) {
    const struct bytes *parts = vector->parts;
    paint();
    uint32_t start = counted();
    lms_verify(parts[0].at, parts[0].len, parts[1].at, parts[1].len, parts[2].at, parts[2].len);
    *instructions = counted() - start;
    return painted_over(__builtin_frame_address(0));
}

int main(void) {
    for (size_t k = 0; k < sizeof vectors / sizeof *vectors; k++) judge_vector(vectors + k);
    for (size_t k = 0; k < sizeof changes / sizeof *changes; k++) judge_change(changes + k);
    for (size_t k = 0; stack_lowest && k < MEASURED; k++) {
        uint32_t instructions;
        size_t stack = measure(vectors + k, &instructions);
        say("cost ");
        say(vectors[k].name);
        say(" ");
        say_number(stack);
        say(" ");
        say_number(instructions);
        say("\n");
    }
    stop(0);
}
