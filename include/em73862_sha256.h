/* SHA-256 (FIPS 180-4) of a message of bytes, as an image: the fingerprint that sha256sum prints.
 *
 * The call answers a number: 0, or a refusal, which changes no byte of the digest. The two buffers do not overlap.
 * crates/sha256/specs/Sha256.antt is the standard's text as definitions, and Call.antt beside it what the call answers.
 * Document 01 has no refusal for a digest: the two here take the numbers of an image of another size and of a buffer that is too small.
 */
#ifndef EM73862_SHA256_H
#define EM73862_SHA256_H
#include <stddef.h>
#include <stdint.h>

#ifdef __cplusplus
extern "C" {
#endif

#define EM73862_SHA256_BYTES 32

/* The refusals, in this order: a message of 4,294,967,296 bytes or more; a digest that is not EM73862_SHA256_BYTES long. */
#define EM73862_SHA256_MESSAGE_TOO_LONG 1
#define EM73862_SHA256_DIGEST_BUFFER 5

/* The digest of a message. 1, 5. */
uint8_t em73862_sha256(const uint8_t *message, size_t length, uint8_t *digest, size_t digest_length);

#ifdef __cplusplus
}
#endif
#endif
