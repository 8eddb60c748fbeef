/* The functions of libcapi.a (made by `tools/staticlib`). It needs nothing of the toolchain beside it; examples/ has a caller in
 * C and one in Rust.
 *
 * A byte slice is passed as a pointer and then a length. Nothing is allocated and no state is kept. Slices that are
 * written (product, output, working) must not overlap any other; a slice of length 0 may have any pointer. Each function
 * answers 0 or the number of a refusal:
 *
 *   1  the text is not a multiple of 16 bytes from 64 to 4,096
 *   2  a buffer has the wrong length
 *   3  there are fewer working bytes than the text's length less 16
 *   6  an unknown cipher or hash, or a key of the wrong length
 *
 * They are tested in the order 6, 1, 2, 3. Refused, the output is as it was. A call takes up to some 7 KB of stack, and
 * zeroes it before it returns (docs/memory.md). */
#ifndef KIZDOLUR_H
#define KIZDOLUR_H

#include <stddef.h>
#include <stdint.h>

/* the numbers of the ciphers and of the hashes */
enum { KIZDOLUR_AES128 = 1, KIZDOLUR_SPECK128 = 2 };
enum { KIZDOLUR_HORNER = 1, KIZDOLUR_BRW = 2 };

/* The product of two blocks.
 *   a, b     the factors, 16 bytes each, the highest coefficient first
 *   product  gets the product, 16 bytes
 * Answers 0 or 2. */
uint8_t kizdolur_block_product(const uint8_t *a, size_t a_length, const uint8_t *b, size_t b_length,
                               uint8_t *product, size_t product_length);

/* One block through a block function.
 *   key     16 bytes
 *   plain   the block, 16 bytes
 *   output  gets the function's value, 16 bytes
 * Answers 0, 6 (the key's length) or 2. */
uint8_t kizdolur_aes128_block(const uint8_t *key, size_t key_length, const uint8_t *plain, size_t plain_length,
                              uint8_t *output, size_t output_length);
uint8_t kizdolur_speck128_block(const uint8_t *key, size_t key_length, const uint8_t *plain, size_t plain_length,
                                uint8_t *output, size_t output_length);

/* The text of one sector, enciphered or deciphered.
 *   cipher   KIZDOLUR_AES128 or KIZDOLUR_SPECK128
 *   hash     KIZDOLUR_HORNER or KIZDOLUR_BRW
 *   key      16 bytes
 *   sector   the sector's number: the same text lies otherwise in each sector
 *   text     a multiple of 16 bytes from 64 to 4,096
 *   output   gets the other text, as long as this one
 *   working  room for the call, at least the text's length less 16; all of it is zero afterwards, refused or not
 * Answers 0, 6, 1, 2 or 3. */
uint8_t kizdolur_encipher(uint8_t cipher, uint8_t hash, const uint8_t *key, size_t key_length, uint64_t sector,
                          const uint8_t *text, size_t text_length, uint8_t *output, size_t output_length,
                          uint8_t *working, size_t working_length);
uint8_t kizdolur_decipher(uint8_t cipher, uint8_t hash, const uint8_t *key, size_t key_length, uint64_t sector,
                          const uint8_t *text, size_t text_length, uint8_t *output, size_t output_length,
                          uint8_t *working, size_t working_length);

#endif
