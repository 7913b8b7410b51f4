/* HSS/LMS signature verification: RFC 8554 with SHA-256 and hashes of 32 bytes, one to eight
 * levels.
 *
 * The library is liblms.so.1, for boot loaders liblms_c.a, and docs/C.md says how to build and to use
 * them. Of each call the lines that begin with "Proved" are what was proved of it.
 *
 * Every call:
 * - takes any bytes of any length below 2^63: what is no key or no signature is not accepted, and
 *   nothing past a length is read;
 * - takes a null pointer where the length beside it is 0, and nowhere else; in a struct lms_piece
 *   the portable file alone does;
 * - allocates nothing, keeps nothing between calls, takes no lock and writes nothing but its
 *   answer, so threads may call at once. What interrupts and boot loaders have to provide is in
 *   docs/C.md, "What a loader provides";
 * - reads a public key and a signature more than once. So nobody may change what it is given until
 *   it has returned: keep key, signature and message in memory that nothing else can write, and run
 *   the bytes that were verified, not those that a device gives when it is asked again.
 *
 * The time that a call takes depends on what it is given. None of that is secret. */
#ifndef LMS_H
#define LMS_H

/* A project with other headers than these names its own, which has bool, true, false, size_t, uint8_t,
 * uint32_t, uint64_t and uintptr_t: in U-Boot, -DLMS_TYPES='"linux/types.h"'. */
#ifdef LMS_TYPES
#include LMS_TYPES
#else
#include <stdbool.h>
#include <stddef.h>
#include <stdint.h>
#endif

#ifdef __cplusplus
extern "C" {
#endif

/* The bytes of an HSS public key (RFC 8554, 6.1). */
#define LMS_PUBLIC_KEY_LEN 60

/* The bytes of the longest HSS signature: eight levels of height 25 and width 1. One of a single
 * level of 10/8 has 1456. */
#define LMS_LONGEST_SIGNATURE_LEN 74988

/* The bytes that the hash of a message has before it: I, q, D_MESG and C (RFC 8554, 4.5). */
#define LMS_MESSAGE_HEAD_LEN 54

/* The bytes of a SHA-256. */
#define LMS_HASH_LEN 32

/* Only lms_verify.c has this call, and only compiled with LMS_COMPRESS: whether the function that it
 * names compresses a fixed block as the proved one does. */
bool lms_compress_check(void);

/* Whether the signature is valid for the message under the HSS public key (RFC 8554, 6.3).
 *
 * Proved: true exactly where RFC 8554's definition accepts. */
bool lms_verify(const uint8_t *public_key, size_t public_key_len,
                const uint8_t *message, size_t message_len,
                const uint8_t *signature, size_t signature_len);

/* A piece of a message. But for the portable file its pointer is not null, also where its length is
 * 0: leave such a piece out, or let lms_address, below, give it an address. */
struct lms_piece {
    const uint8_t *bytes;
    size_t len;
};

/* The same for a message that lies in pieces, as firmware in several regions: piece_count of them,
 * one after the other. The array is needed while the call runs, and no longer.
 *
 * Proved: true exactly where RFC 8554's definition accepts the pieces joined. */
bool lms_verify_pieces(const uint8_t *public_key, size_t public_key_len,
                       const struct lms_piece *pieces, size_t piece_count,
                       const uint8_t *signature, size_t signature_len);

/* For a message that is never in memory at once, or that a device hashes. The caller's own SHA-256
 * takes the head that lms_message_head writes and then the message, block by block, and
 * lms_verify_hash takes the hash.
 *
 * Both calls have to be given the same key and the same signature, which nobody may have changed in
 * between. The head belongs to that key and signature. Of a hash with another head nothing is proved,
 * and lms_verify_hash can't detect one.
 *
 * lms_message_head answers whether key and signature have a head, and writes it. It is false only
 * where key or signature ends before its number of levels, the key's isn't 1 to 8, the signature's
 * isn't one less, an upper level's signature or the key that it signs isn't there whole or isn't
 * valid, or the bottom level's key or signature isn't of known typecodes that agree, of its length,
 * and of a leaf in the tree. No message is valid then: refuse the message, and hash nothing. True
 * says nothing of a message yet. Where lms_verify has answered false, it so tells something of why:
 * false says that key or signature is malformed, that they are of different kinds, or that an upper
 * level isn't valid under this key; true, that they are well formed, and the signature is changed, of
 * another message or, where it has one level, by another key. The signatures of the upper levels,
 * which sign keys, are verified by both calls.
 *
 * The head must not overlap key or signature: the call reads them, and may do so after it has begun
 * to write the head, as it was proved and compiled for memory that lies apart. It must not be null.
 *
 * Proved: true exactly where key and signature have a head. After true, what is written is
 * RFC 8554's head. After false, its definition accepts no message with this key and signature, and
 * the head is as it was. */
bool lms_message_head(const uint8_t *public_key, size_t public_key_len,
                      const uint8_t *signature, size_t signature_len,
                      uint8_t head[LMS_MESSAGE_HEAD_LEN]);

/* Whether the signature is valid for the message, by the SHA-256 of the head and the message. The
 * hash must not be null.
 *
 * Proved: where the hash is SHA-256(head || message), true exactly where RFC 8554's definition
 * accepts the message. Never true, whatever the hash, where key and signature have no head. */
bool lms_verify_hash(const uint8_t *public_key, size_t public_key_len,
                     const uint8_t *signature, size_t signature_len,
                     const uint8_t hash[LMS_HASH_LEN]);

/* The archives take no null pointer. So the names above mean those with _any after the name,
 * which give it an address in the place of the one beside a length of 0; nothing is read there. The
 * portable file takes null: who compiles it defines LMS_PORTABLE, never with liblms_c.a, which takes no
 * null, and the names are its functions'. */
#ifndef LMS_PORTABLE

static inline const uint8_t *lms_address(const uint8_t *bytes, size_t len) {
    static const uint8_t nothing = 0;
    return len == 0 ? &nothing : bytes;
}

static inline bool lms_verify_any(const uint8_t *public_key, size_t public_key_len,
                                  const uint8_t *message, size_t message_len,
                                  const uint8_t *signature, size_t signature_len) {
    return lms_verify(lms_address(public_key, public_key_len), public_key_len,
                      lms_address(message, message_len), message_len,
                      lms_address(signature, signature_len), signature_len);
}

static inline bool lms_verify_pieces_any(const uint8_t *public_key, size_t public_key_len,
                                         const struct lms_piece *pieces, size_t piece_count,
                                         const uint8_t *signature, size_t signature_len) {
    static const struct lms_piece none = {0, 0};
    return lms_verify_pieces(lms_address(public_key, public_key_len), public_key_len,
                             piece_count == 0 ? &none : pieces, piece_count,
                             lms_address(signature, signature_len), signature_len);
}

static inline bool lms_message_head_any(const uint8_t *public_key, size_t public_key_len,
                                        const uint8_t *signature, size_t signature_len,
                                        uint8_t head[LMS_MESSAGE_HEAD_LEN]) {
    return lms_message_head(lms_address(public_key, public_key_len), public_key_len,
                            lms_address(signature, signature_len), signature_len, head);
}

static inline bool lms_verify_hash_any(const uint8_t *public_key, size_t public_key_len,
                                       const uint8_t *signature, size_t signature_len,
                                       const uint8_t hash[LMS_HASH_LEN]) {
    return lms_verify_hash(lms_address(public_key, public_key_len), public_key_len,
                           lms_address(signature, signature_len), signature_len, hash);
}

#define lms_verify lms_verify_any
#define lms_verify_pieces lms_verify_pieces_any
#define lms_message_head lms_message_head_any
#define lms_verify_hash lms_verify_hash_any

#endif

#ifdef __cplusplus
}
#endif

#endif
