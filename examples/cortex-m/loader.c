/* Starts an image of a slot, if it is signed by one of the keys of keys.h, for this slot, and no older
 * than what was started before. */
#include "board.h"
#include "keys.h"
#include "lms.h"

/* An image is a header, the application, the length of the signature, and the signature of header and
 * application. The header has MAGIC, the version, the application's length, the address that it is
 * linked to, and zeros. Numbers have four bytes, the lowest first. */
enum { MAGIC = 0x31534d4c, HEADER_LEN = 256, NUMBER_LEN = 4 };

struct image {
    const uint8_t *message, *signature;
    size_t message_len, signature_len;
    uint32_t version, address;
};

_Static_assert(sizeof keys / sizeof *keys <= 32, "each key has a bit of refused_keys");

static uint32_t number_at(const uint8_t *at) {
    return at[0] | (uint32_t)at[1] << 8 | (uint32_t)at[2] << 16 | (uint32_t)at[3] << 24;
}

/* Finds the image in a slot. Nothing of it is verified yet: no length is used before it is bounded. */
static bool find_image(const uint8_t *slot, struct image *image) {
    size_t left = SLOT_LEN - HEADER_LEN - NUMBER_LEN, len = number_at(slot + 8);
    if (number_at(slot) != MAGIC || len > left) return false;
    image->version = number_at(slot + 4);
    image->address = number_at(slot + 12);
    image->message = slot;
    image->message_len = HEADER_LEN + len;
    image->signature = slot + image->message_len + NUMBER_LEN;
    image->signature_len = number_at(slot + image->message_len);
    return image->signature_len <= left - len;
}

static bool is_signed(const struct image *image) {
    for (size_t k = 0; k < sizeof keys / sizeof *keys; k++)
        if (!(kept->refused_keys >> k & 1)
            && lms_verify(keys[k], sizeof keys[k], image->message, image->message_len,
                          image->signature, image->signature_len)) return true;
    return false;
}

/* Why what a slot has may not be started, or null. */
static const char *fault_of(const uint8_t *slot, struct image *image) {
    if (!find_image(slot, image)) return "no image";
    if (!is_signed(image)) return "not signed by a key that is taken";
    if (image->address != (uintptr_t)slot + HEADER_LEN) return "for another place";
    if (image->version < kept->least_version) return "an older version";
    return 0;
}

int main(void) {
    for (uint32_t k = 0; k < SLOTS; k++) {
        struct image image;
        const char *fault = fault_of(slots[k], &image);
        say("slot ");
        say_number(k);
        say(": ");
        say(fault ? fault : "started");
        say("\n");
        if (fault) continue;
        kept->least_version = image.version;
        start_at(image.message + HEADER_LEN);
    }
    say("nothing is started\n");
    return 0;
}
