/* The calls of liblms.so.1, which take null beside a length of 0: a caller in another language does not
 * see the names by which the header does that. `names` gives each of them the name of the proved call that
 * it calls, and that one another name. */
#include "lms.h"

bool lms_shared_verify(const uint8_t *public_key, size_t public_key_len,
                       const uint8_t *message, size_t message_len,
                       const uint8_t *signature, size_t signature_len) {
    return lms_verify(public_key, public_key_len, message, message_len, signature, signature_len);
}

bool lms_shared_verify_pieces(const uint8_t *public_key, size_t public_key_len,
                              const struct lms_piece *pieces, size_t piece_count,
                              const uint8_t *signature, size_t signature_len) {
    return lms_verify_pieces(public_key, public_key_len, pieces, piece_count, signature, signature_len);
}

bool lms_shared_message_head(const uint8_t *public_key, size_t public_key_len,
                             const uint8_t *signature, size_t signature_len,
                             uint8_t head[LMS_MESSAGE_HEAD_LEN]) {
    return lms_message_head(public_key, public_key_len, signature, signature_len, head);
}

bool lms_shared_verify_hash(const uint8_t *public_key, size_t public_key_len,
                            const uint8_t *signature, size_t signature_len,
                            const uint8_t hash[LMS_HASH_LEN]) {
    return lms_verify_hash(public_key, public_key_len, signature, signature_len, hash);
}
