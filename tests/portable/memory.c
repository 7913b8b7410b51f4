/* Calls the portable file's own functions at the edges of what they may reach, and says where one of
 * them reaches more or less. machine.c is the file, which checks what it reaches. */
static unsigned traps;
#define LMS_TRAP() (traps++)
#include "machine.c"
#include "platform.h"

#define LOWEST ((uint64_t)STACK_END - STACK_BYTES)
#define HIGHEST ((uint64_t)STACK_END + CONSTANTS_LEN - 1)

enum access { READ, WRITE };

static struct machine machine;

/* Says what is wrong at an address or another number, and ends. */
static void wrong(const char *what, uint64_t at) {
    char digits[17] = {0};
    for (unsigned k = 0; k < 16; k++) digits[k] = "0123456789abcdef"[at >> (60 - 4 * k) & 15];
    say(digits);
    say(what);
    stop(1);
}

/* Whether there was a trap, which is said once. From now on there was none. */
static bool trapped(void) {
    bool found = machine.trapped;
    if (traps != found) wrong(" times a trap was said\n", traps);
    machine.trapped = false;
    traps = 0;
    return found;
}

/* Whether bytes are found, and where: the number of a pointer. */
static bool finds(enum access access, uint64_t address, uint64_t len, uintptr_t *pointer) {
    const uint8_t *source = 0;
    uint8_t *target = 0;
    bool found = access == READ ? readable(&machine, address, len, &source) : writable(&machine, address, len, &target);
    *pointer = access == READ ? (uintptr_t)source : (uintptr_t)target;
    if (trapped() == found) wrong(" is found after a trap, or not found without one\n", address);
    return found;
}

static void is_found(enum access access, uint64_t address, uint64_t len, uintptr_t pointer) {
    uintptr_t found;
    if (!finds(access, address, len, &found)) wrong(" is not found\n", address);
    if (found != pointer) wrong(" is found elsewhere\n", address);
}

static void is_not_found(enum access access, uint64_t address, uint64_t len) {
    uintptr_t found;
    if (finds(access, address, len, &found)) wrong(" is found, with what is beyond\n", address);
}

/* Each of these bytes is found with all that follow it, and with no more. */
static void are_found(enum access access, uint64_t begin, uint64_t size, uintptr_t pointer) {
    for (uint64_t at = 0; at < size; at++) {
        is_found(access, begin + at, size - at, pointer + (uintptr_t)at);
        is_not_found(access, begin + at, size - at + 1);
        is_not_found(access, begin + at, UINT64_MAX);
    }
}

static void has_stack_and_constants(void) {
    are_found(READ, LOWEST, STACK_BYTES, (uintptr_t)machine.stack);
    are_found(WRITE, LOWEST, STACK_BYTES, (uintptr_t)machine.stack);
    are_found(READ, STACK_END, CONSTANTS_LEN, (uintptr_t)constants);
    is_not_found(READ, LOWEST - 1, 1);
    is_not_found(READ, HIGHEST + 1, 1);
    is_not_found(WRITE, LOWEST - 1, 1);
    is_not_found(WRITE, STACK_END, 1);
    is_not_found(WRITE, HIGHEST, 1);
}

/* Bytes that the caller has at this number of a pointer. */
static void has_caller_at(uintptr_t pointer) {
    uint64_t address = given(&machine, 0, (const uint8_t *)pointer, 8);
    is_found(READ, address, 8, pointer);
    is_found(READ, address + 7, 1, pointer + 7);
    is_not_found(WRITE, address, 1);
#ifdef LMS_CHECK_CALLER
    are_found(READ, address, 8, pointer);
    is_not_found(READ, address - 1, 1);
#endif
}

#if __SIZEOF_POINTER__ == 4

/* Each pointer is one of the caller's, and no other address. */
static void has_caller(void) {
    static const uintptr_t places[] = {0, 0x1000, 0x7ffffff8, 0x80000000, 0xfffffff8};
    for (size_t k = 0; k < sizeof places / sizeof *places; k++) has_caller_at(places[k]);
    is_not_found(READ, HOST - 1, 1);
    is_not_found(READ, HOST + ((uint64_t)1 << 32), 1);
}

#else

#define BIT(number) ((uintptr_t)1 << (number))

static void has_no_caller_at(uintptr_t pointer) {
    is_not_found(READ, given(&machine, 0, (const uint8_t *)pointer, 8), 1);
}

/* Pointers whose four highest bits are alike are those of the caller: programs have theirs in the
 * lower half, and kernels in the upper one. */
static void has_caller(void) {
    static const uintptr_t places[] = {
        0, 0x1000, BIT(47) - 8, BIT(56) - 8, BIT(60) - 8, 0 - BIT(60), 0 - BIT(56), 0 - BIT(47), 0 - BIT(3),
    };
    for (size_t k = 0; k < sizeof places / sizeof *places; k++) has_caller_at(places[k]);
    has_no_caller_at(BIT(60));
    has_no_caller_at(BIT(63) - 8);
    has_no_caller_at(BIT(63));
    has_no_caller_at(0 - BIT(60) - 8);
}

#endif

/* The word at a place in an array of two pieces, or none. */
static void has_piece_at(uint64_t at) {
    const struct lms_piece *piece = machine.pieces + at / PIECE_LEN;
    bool is_one = at / PIECE_LEN < machine.piece_count && at % 8 == 0;
    uint64_t wanted = !is_one ? 0 : at % PIECE_LEN ? piece->len : address_of(piece->bytes);
    if (i64_load_or_piece(&machine, PIECES, at) != wanted) wrong(" is another word of the pieces\n", at);
    if (trapped() == is_one) wrong(" is a word of the pieces that traps, or no word that doesn't\n", at);
}

/* (The third one is what lies behind the caller's.) */
static void has_pieces(void) {
    static const uint8_t bytes[3] = {1, 2, 3};
    static const struct lms_piece pieces[3] = {{bytes, 3}, {bytes + 1, 2}, {bytes + 2, 1}};
    machine.pieces = pieces;
    for (machine.piece_count = 0; machine.piece_count < 3; machine.piece_count++)
        for (uint64_t at = 0; at < 3 * PIECE_LEN; at++) has_piece_at(at);
    if (i64_load_or_piece(&machine, PIECES - 8, 0) != 0 || !trapped()) wrong(" is before the pieces\n", PIECES - 8);
    machine.piece_count = 0;
}

static uint64_t load(unsigned size, uint64_t address) {
    if (size == 8) return load64(&machine, address);
    return size == 4 ? load32(&machine, address) : load8(&machine, address);
}

static void store(unsigned size, uint64_t address) {
    if (size == 8) store64(&machine, address, UINT64_MAX);
    else if (size == 4) store32(&machine, address, UINT32_MAX);
    else if (size == 2) store16(&machine, address, UINT32_MAX);
    else store8(&machine, address, UINT32_MAX);
}

/* A load of so many bytes goes to the last address, and no further. */
static void loads_to(uint64_t last, unsigned size) {
    load(size, last - size + 1);
    if (trapped()) wrong(" bytes can't be loaded\n", size);
    if (load(size, last - size + 2) != 0 || !trapped()) wrong(" bytes are loaded past the last one\n", size);
}

static void loads(unsigned size) {
    loads_to(HIGHEST, size);
#ifdef LMS_CHECK_CALLER
    static const uint8_t bytes[9] = {1, 1, 1, 1, 1, 1, 1, 1, 1};
    loads_to(given(&machine, 0, bytes, 8) + 7, size);
#endif
}

/* How many of the stack's last bytes were written, which then are as before. */
static unsigned written(void) {
    unsigned count = 0;
    for (unsigned k = 1; k <= 16; k++) count += machine.stack[STACK_BYTES - k] != 0;
    memset(machine.stack, 0, sizeof machine.stack);
    return count;
}

/* A store of so many bytes goes to the stack's last byte, and no further. */
static void stores(unsigned size) {
    store(size, STACK_END - size);
    if (trapped() || written() != size) wrong(" bytes are not stored\n", size);
    store(size, STACK_END - size + 1);
    if (!trapped() || written() != 0) wrong(" bytes are stored past the stack\n", size);
}

static void fills(uint64_t len) {
    fill(&machine, STACK_END - len, 0x1ff, len);
    if (trapped() || written() != len) wrong(" bytes are not filled\n", len);
    fill(&machine, STACK_END - len + 1, 0x1ff, len);
    if (trapped() != (len > 0) || written() != 0) wrong(" bytes are filled past the stack\n", len);
}

/* (What is copied is all ones.) */
static void copies(uint64_t len) {
    memset(machine.stack, 0xff, (size_t)len);
    copy(&machine, STACK_END - len, LOWEST, len);
    if (trapped() || written() != len) wrong(" bytes are not copied\n", len);
    copy(&machine, STACK_END - len + 1, LOWEST, len);
    if (trapped() != (len > 0) || written() != 0) wrong(" bytes are copied past the stack\n", len);
    copy(&machine, LOWEST, HIGHEST - len + 2, len);
    if (trapped() != (len > 0)) wrong(" bytes are copied from behind the constants\n", len);
}

/* A loop as the functions have it, of ten rounds, the third of which traps: how many there were. */
static uint32_t rounds(struct machine *m) {
    uint32_t done = 0;
again:
    LOOP(done);
    if (++done == 3) trap(m);
    if (done < 10) goto again;
    return done;
}

/* After a trap a loop ends, a further trap is not said, and no answer is true. */
static void ends(void) {
    if (!end(&machine, 1) || end(&machine, 0) || end(&machine, 2)) wrong(" is another answer\n", 1);
    if (rounds(&machine) != 3) wrong(" rounds should have been the last\n", 3);
    trap(&machine);
    if (end(&machine, 1)) wrong(" is an answer after a trap\n", 1);
    if (!trapped()) wrong(" traps\n", 0);
}

int main(void) {
    has_stack_and_constants();
    has_caller();
    has_pieces();
    for (unsigned size = 1; size <= 8; size += size == 1 ? 3 : 4) loads(size);
    for (unsigned size = 1; size <= 8; size *= 2) stores(size);
    for (uint64_t len = 0; len <= 16; len += 8) fills(len);
    for (uint64_t len = 0; len <= 16; len += 8) copies(len);
    ends();
    stop(0);
}
