/* The same methods in plain C, to compare with: products by doubling and adding alone, an S-box table, MixColumns as byte
 * products, the powers of BRW once for each hash. */
#ifndef REFERENCE_H
#define REFERENCE_H

#include <stddef.h>
#include <stdint.h>

void reference_product(const uint8_t a[16], const uint8_t b[16], uint8_t product[16]);
void reference_aes128(const uint8_t key[16], const uint8_t plain[16], uint8_t output[16]);
void reference_speck128(const uint8_t key[16], const uint8_t plain[16], uint8_t output[16]);

/* cipher 1 is AES-128 and 2 Speck128/128, hash 1 the Horner hash and 2 the BRW hash; length a multiple of 16 from 64 to
 * 4,096; working has length - 16 bytes */
void reference_encipher(int cipher, int hash, const uint8_t key[16], uint64_t sector, const uint8_t *text,
                        uint8_t *output, uint8_t *working, size_t length);
void reference_decipher(int cipher, int hash, const uint8_t key[16], uint64_t sector, const uint8_t *text,
                        uint8_t *output, uint8_t *working, size_t length);

/* what a search through memory looks for: the round keys, and from a plain text the hash key, A1, A2, B1, B2 and Z */
void reference_aes128_rows(const uint8_t key[16], uint8_t rows[176]);
void reference_speck128_keys(const uint8_t key[16], uint64_t keys[32]);
void reference_middle(int cipher, int hash, const uint8_t key[16], uint64_t sector, const uint8_t *text,
                      uint8_t *working, size_t length, uint8_t values[6][16]);

#endif
