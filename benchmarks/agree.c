/* agree: the product against OpenSSL on AES-128 blocks (where it was compiled in), and against plain C on blocks, products
 * and whole sectors, on random values from a fixed seed. Ends with status 1 at the first difference. */
#include <stdio.h>
#include <stdlib.h>
#include <string.h>

#include "kizdolur.h"
#include "reference.h"
#ifdef WITH_OPENSSL
#include <openssl/evp.h>
#endif

enum { BLOCKS = 10000, SECTORS = 4000 };

static uint64_t state = 20240229;

/* splitmix64 */
static uint64_t next(void) {
    uint64_t z = state += 0x9e3779b97f4a7c15;
    z = (z ^ z >> 30) * 0xbf58476d1ce4e5b9;
    z = (z ^ z >> 27) * 0x94d049bb133111eb;
    return z ^ z >> 31;
}

static void fill(uint8_t *bytes, size_t n) {
    for (size_t i = 0; i < n; i++) bytes[i] = (uint8_t)next();
}

static void same(const uint8_t *a, const uint8_t *b, size_t n, const char *what) {
    if (memcmp(a, b, n) != 0) {
        printf("differ: %s\n", what);
        exit(1);
    }
}

static void blocks(void) {
    for (int i = 0; i < BLOCKS; i++) {
        uint8_t key[16], plain[16], a[16], b[16];
        fill(key, 16);
        fill(plain, 16);
        if (kizdolur_aes128_block(key, 16, plain, 16, a, 16)) exit(1);
#ifdef WITH_OPENSSL
        int n;
        EVP_CIPHER_CTX *c = EVP_CIPHER_CTX_new();
        if (!EVP_EncryptInit_ex(c, EVP_aes_128_ecb(), NULL, key, NULL) || !EVP_EncryptUpdate(c, b, &n, plain, 16)) exit(1);
        EVP_CIPHER_CTX_free(c);
        same(a, b, 16, "AES-128 from OpenSSL");
#endif
        reference_aes128(key, plain, b);
        same(a, b, 16, "AES-128 from C");
        if (kizdolur_speck128_block(key, 16, plain, 16, a, 16)) exit(1);
        reference_speck128(key, plain, b);
        same(a, b, 16, "Speck128/128 from C");
        if (kizdolur_block_product(key, 16, plain, 16, a, 16)) exit(1);
        reference_product(key, plain, b);
        same(a, b, 16, "product from C");
    }
}

static void sectors(void) {
    static uint8_t text[4096], a[4096], b[4096], working[4096], zero[4096];
    for (int i = 0; i < SECTORS; i++) {
        uint8_t key[16], cipher = (uint8_t)(1 + i % 2), hash = (uint8_t)(1 + i / 2 % 2);
        size_t n = 64 + 16 * (next() % 253);
        uint64_t sector = next();
        fill(key, 16);
        fill(text, n);
        fill(working, sizeof working);
        if (kizdolur_encipher(cipher, hash, key, 16, sector, text, n, a, n, working, n - 16)) exit(1);
        same(working, zero, n - 16, "working bytes from zero");
        reference_encipher(cipher, hash, key, sector, text, b, working, n);
        same(a, b, n, "enciphered sector from C");
        if (kizdolur_decipher(cipher, hash, key, 16, sector, a, n, b, n, working, n - 16)) exit(1);
        same(b, text, n, "deciphered sector from its text");
        if (kizdolur_decipher(cipher, hash, key, 16, sector, text, n, a, n, working, n - 16)) exit(1);
        reference_decipher(cipher, hash, key, sector, text, b, working, n);
        same(a, b, n, "deciphered sector from C");
    }
}

int main(void) {
    blocks();
    sectors();
#ifdef WITH_OPENSSL
    printf("%d random AES-128 blocks agree with OpenSSL\n", BLOCKS);
#else
    printf("compiled without OpenSSL\n");
#endif
    printf("%d random products and blocks of each block function agree with C\n", BLOCKS);
    printf("%d random sectors agree with C in both directions\n", SECTORS);
    return 0;
}
