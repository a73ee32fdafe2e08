/* Muchqawi for the radio firmware: tags, modes, checksum, hash and key wrapping over BelT.
 *
 * Every function answers a number: 0 where it was accepted, else the refusal's number (docs/ANSWERS.md has them all):
 *   31 an output or the scratch is short      32 the message has more than 65,536 octets
 *   33 fewer than 16 octets in ECB or CBC     34 the key does not have 16, 24 or 32 octets
 *   35 the key text does not have 16 to 256   36 a zero site or checkpoint
 *   51 the wrapped text does not have 32 to 272   52 it was not wrapped under this header
 * A key's length is tested before all else; then modes test 32, 33, 31 in this order, checksum and hash 32, 31, issue 36, 31,
 * wrap 35, 31, unwrap 51, 31, 52.
 *
 * Accepted, a call writes its result to the front of its output and leaves the rest of the output as it was; refused, it leaves the
 * output as it was. Nothing else is written, but for the scratch of unwrap, which is all zero after every call, refused ones too.
 *
 * A start or a header of 16 octets is two numbers: `first` holds octets 0 to 7 and `second` octets 8 to 15, the least octet first.
 *
 * The caller's duties, which no call can test:
 *   - a pointer with a length above zero points to so many octets (a null pointer goes only with length 0);
 *   - an output or scratch overlaps no other buffer of the same call.
 * The functions keep nothing between calls and use no memory but the caller's and the stack. */
#ifndef MUCHQAWI_H
#define MUCHQAWI_H

#include <stddef.h>
#include <stdint.h>

#ifdef __cplusplus
extern "C" {
#endif

/* Octets of a tag text, a checksum, a hash, and the scratch of unwrap. */
#define MUCHQAWI_TAG 24
#define MUCHQAWI_CHECKSUM 8
#define MUCHQAWI_HASH 32
#define MUCHQAWI_SCRATCH 272

/* Writes the tag text of a checkpoint of a site, 24 octets. */
uint8_t muchqawi_issue(const uint8_t *key, size_t key_len, uint16_t site, uint16_t checkpoint, uint32_t serial, uint8_t *out, size_t out_len);

/* Each writes as many octets as the message has. ECB and CBC take 16 octets or more, CFB and CTR any number. */
uint8_t muchqawi_ecb_encrypt(const uint8_t *key, size_t key_len, const uint8_t *message, size_t message_len, uint8_t *out, size_t out_len);
uint8_t muchqawi_ecb_decrypt(const uint8_t *key, size_t key_len, const uint8_t *message, size_t message_len, uint8_t *out, size_t out_len);
uint8_t muchqawi_cbc_encrypt(const uint8_t *key, size_t key_len, uint64_t first, uint64_t second, const uint8_t *message, size_t message_len, uint8_t *out, size_t out_len);
uint8_t muchqawi_cbc_decrypt(const uint8_t *key, size_t key_len, uint64_t first, uint64_t second, const uint8_t *message, size_t message_len, uint8_t *out, size_t out_len);
uint8_t muchqawi_cfb_encrypt(const uint8_t *key, size_t key_len, uint64_t first, uint64_t second, const uint8_t *message, size_t message_len, uint8_t *out, size_t out_len);
uint8_t muchqawi_cfb_decrypt(const uint8_t *key, size_t key_len, uint64_t first, uint64_t second, const uint8_t *message, size_t message_len, uint8_t *out, size_t out_len);
uint8_t muchqawi_ctr_encrypt(const uint8_t *key, size_t key_len, uint64_t first, uint64_t second, const uint8_t *message, size_t message_len, uint8_t *out, size_t out_len);
uint8_t muchqawi_ctr_decrypt(const uint8_t *key, size_t key_len, uint64_t first, uint64_t second, const uint8_t *message, size_t message_len, uint8_t *out, size_t out_len);

/* Writes the checksum of a message, 8 octets. */
uint8_t muchqawi_checksum(const uint8_t *key, size_t key_len, const uint8_t *message, size_t message_len, uint8_t *out, size_t out_len);

/* Writes the hash of a message, 32 octets. */
uint8_t muchqawi_hash(const uint8_t *message, size_t message_len, uint8_t *out, size_t out_len);

/* Wraps a key text of 16 to 256 octets under a header: writes 16 octets more. */
uint8_t muchqawi_wrap(const uint8_t *key, size_t key_len, uint64_t first, uint64_t second, const uint8_t *text, size_t text_len, uint8_t *out, size_t out_len);

/* Unwraps a text of 32 to 272 octets: writes 16 octets fewer. The scratch has 272 octets or more, and is all zero after the call. */
uint8_t muchqawi_unwrap(const uint8_t *key, size_t key_len, uint64_t first, uint64_t second, const uint8_t *text, size_t text_len, uint8_t *scratch, size_t scratch_len, uint8_t *out, size_t out_len);

#ifdef __cplusplus
}
#endif

#endif
