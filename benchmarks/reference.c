#include "reference.h"

#include <string.h>

typedef unsigned __int128 block;

/* ---- blocks */

static block from_bytes(const uint8_t bytes[16]) {
    block x = 0;
    for (int i = 0; i < 16; i++) x = x << 8 | bytes[i];
    return x;
}

static void to_bytes(block x, uint8_t bytes[16]) {
    for (int i = 15; i >= 0; i--, x >>= 8) bytes[i] = (uint8_t)x;
}

/* without a branch on the bits */
static block times(block x, block y) {
    block sum = 0;
    for (int i = 0; i < 128; i++) {
        sum ^= y & -(x & 1);
        x >>= 1;
        y = y << 1 ^ (0x87 & -(y >> 127));
    }
    return sum;
}

void reference_product(const uint8_t a[16], const uint8_t b[16], uint8_t product[16]) {
    to_bytes(times(from_bytes(a), from_bytes(b)), product);
}

/* ---- AES-128 */

static const uint8_t sbox[256] = {
    0x63, 0x7c, 0x77, 0x7b, 0xf2, 0x6b, 0x6f, 0xc5, 0x30, 0x01, 0x67, 0x2b, 0xfe, 0xd7, 0xab, 0x76,
    0xca, 0x82, 0xc9, 0x7d, 0xfa, 0x59, 0x47, 0xf0, 0xad, 0xd4, 0xa2, 0xaf, 0x9c, 0xa4, 0x72, 0xc0,
    0xb7, 0xfd, 0x93, 0x26, 0x36, 0x3f, 0xf7, 0xcc, 0x34, 0xa5, 0xe5, 0xf1, 0x71, 0xd8, 0x31, 0x15,
    0x04, 0xc7, 0x23, 0xc3, 0x18, 0x96, 0x05, 0x9a, 0x07, 0x12, 0x80, 0xe2, 0xeb, 0x27, 0xb2, 0x75,
    0x09, 0x83, 0x2c, 0x1a, 0x1b, 0x6e, 0x5a, 0xa0, 0x52, 0x3b, 0xd6, 0xb3, 0x29, 0xe3, 0x2f, 0x84,
    0x53, 0xd1, 0x00, 0xed, 0x20, 0xfc, 0xb1, 0x5b, 0x6a, 0xcb, 0xbe, 0x39, 0x4a, 0x4c, 0x58, 0xcf,
    0xd0, 0xef, 0xaa, 0xfb, 0x43, 0x4d, 0x33, 0x85, 0x45, 0xf9, 0x02, 0x7f, 0x50, 0x3c, 0x9f, 0xa8,
    0x51, 0xa3, 0x40, 0x8f, 0x92, 0x9d, 0x38, 0xf5, 0xbc, 0xb6, 0xda, 0x21, 0x10, 0xff, 0xf3, 0xd2,
    0xcd, 0x0c, 0x13, 0xec, 0x5f, 0x97, 0x44, 0x17, 0xc4, 0xa7, 0x7e, 0x3d, 0x64, 0x5d, 0x19, 0x73,
    0x60, 0x81, 0x4f, 0xdc, 0x22, 0x2a, 0x90, 0x88, 0x46, 0xee, 0xb8, 0x14, 0xde, 0x5e, 0x0b, 0xdb,
    0xe0, 0x32, 0x3a, 0x0a, 0x49, 0x06, 0x24, 0x5c, 0xc2, 0xd3, 0xac, 0x62, 0x91, 0x95, 0xe4, 0x79,
    0xe7, 0xc8, 0x37, 0x6d, 0x8d, 0xd5, 0x4e, 0xa9, 0x6c, 0x56, 0xf4, 0xea, 0x65, 0x7a, 0xae, 0x08,
    0xba, 0x78, 0x25, 0x2e, 0x1c, 0xa6, 0xb4, 0xc6, 0xe8, 0xdd, 0x74, 0x1f, 0x4b, 0xbd, 0x8b, 0x8a,
    0x70, 0x3e, 0xb5, 0x66, 0x48, 0x03, 0xf6, 0x0e, 0x61, 0x35, 0x57, 0xb9, 0x86, 0xc1, 0x1d, 0x9e,
    0xe1, 0xf8, 0x98, 0x11, 0x69, 0xd9, 0x8e, 0x94, 0x9b, 0x1e, 0x87, 0xe9, 0xce, 0x55, 0x28, 0xdf,
    0x8c, 0xa1, 0x89, 0x0d, 0xbf, 0xe6, 0x42, 0x68, 0x41, 0x99, 0x2d, 0x0f, 0xb0, 0x54, 0xbb, 0x16,
};

static const uint8_t constants[10] = {0x01, 0x02, 0x04, 0x08, 0x10, 0x20, 0x40, 0x80, 0x1b, 0x36};

typedef struct {
    uint8_t words[44][4];
} schedule;

static void expand(const uint8_t key[16], schedule *s) {
    memcpy(s->words, key, 16);
    for (int i = 4; i < 44; i++) {
        uint8_t t[4];
        memcpy(t, s->words[i - 1], 4);
        if (i % 4 == 0) {
            uint8_t first = t[0];
            t[0] = sbox[t[1]] ^ constants[i / 4 - 1];
            t[1] = sbox[t[2]];
            t[2] = sbox[t[3]];
            t[3] = sbox[first];
        }
        for (int r = 0; r < 4; r++) s->words[i][r] = s->words[i - 4][r] ^ t[r];
    }
}

static uint8_t byte_times(uint8_t x, uint8_t y) {
    uint8_t sum = 0;
    for (int i = 0; i < 8; i++) {
        sum ^= y & -(x & 1);
        x >>= 1;
        y = (uint8_t)(y << 1) ^ (0x1b & -(y >> 7));
    }
    return sum;
}

static const uint8_t matrix[4][4] = {{2, 3, 1, 1}, {1, 2, 3, 1}, {1, 1, 2, 3}, {3, 1, 1, 2}};

static void mix(uint8_t column[4]) {
    uint8_t new[4];
    for (int r = 0; r < 4; r++) {
        new[r] = 0;
        for (int c = 0; c < 4; c++) new[r] ^= byte_times(matrix[r][c], column[c]);
    }
    memcpy(column, new, 4);
}

static void aes(const schedule *k, const uint8_t plain[16], uint8_t output[16]) {
    uint8_t s[4][4], t[4][4];
    for (int c = 0; c < 4; c++)
        for (int r = 0; r < 4; r++) s[c][r] = plain[4 * c + r] ^ k->words[c][r];
    for (int round = 1; round <= 10; round++) {
        for (int c = 0; c < 4; c++)
            for (int r = 0; r < 4; r++) t[c][r] = sbox[s[(c + r) % 4][r]];
        if (round < 10)
            for (int c = 0; c < 4; c++) mix(t[c]);
        for (int c = 0; c < 4; c++)
            for (int r = 0; r < 4; r++) s[c][r] = t[c][r] ^ k->words[4 * round + c][r];
    }
    memcpy(output, s, 16);
}

void reference_aes128(const uint8_t key[16], const uint8_t plain[16], uint8_t output[16]) {
    schedule s;
    expand(key, &s);
    aes(&s, plain, output);
}

void reference_aes128_rows(const uint8_t key[16], uint8_t rows[176]) {
    schedule s;
    expand(key, &s);
    memcpy(rows, s.words, 176);
}

/* ---- Speck128/128 */

static uint64_t right(uint64_t x, int n) { return x >> n | x << (64 - n); }
static uint64_t left(uint64_t x, int n) { return x << n | x >> (64 - n); }

static block speck(block key, block x) {
    uint64_t u = (uint64_t)(x >> 64), v = (uint64_t)x, l = (uint64_t)(key >> 64), k = (uint64_t)key;
    for (uint64_t i = 0; i < 32; i++) {
        u = (right(u, 8) + v) ^ k;
        v = left(v, 3) ^ u;
        l = (k + right(l, 8)) ^ i;
        k = left(k, 3) ^ l;
    }
    return (block)u << 64 | v;
}

void reference_speck128(const uint8_t key[16], const uint8_t plain[16], uint8_t output[16]) {
    to_bytes(speck(from_bytes(key), from_bytes(plain)), output);
}

void reference_speck128_keys(const uint8_t key[16], uint64_t keys[32]) {
    uint64_t l = (uint64_t)(from_bytes(key) >> 64), k = (uint64_t)from_bytes(key);
    for (uint64_t i = 0; i < 32; i++) {
        keys[i] = k;
        l = (k + right(l, 8)) ^ i;
        k = left(k, 3) ^ l;
    }
}

/* ---- the transform */

typedef struct {
    int cipher, hash;
    schedule rows;
    block key;
} method;

static block call(const method *m, block x) {
    uint8_t in[16], out[16];
    if (m->cipher == 2) return speck(m->key, x);
    to_bytes(x, in);
    aes(&m->rows, in, out);
    return from_bytes(out);
}

static block horner(block t, const uint8_t *list, size_t n) {
    block value = 1;
    for (size_t i = 0; i < n; i++) value = times(value, t) ^ from_bytes(list + 16 * i);
    return value;
}

static block brw_part(const block *powers, const uint8_t *list, size_t n) {
    if (n == 0) return 0;
    if (n == 1) return from_bytes(list);
    if (n == 2) return times(from_bytes(list), powers[0]) ^ from_bytes(list + 16);
    if (n == 3) return times(from_bytes(list) ^ powers[0], from_bytes(list + 16) ^ powers[1]) ^ from_bytes(list + 32);
    size_t k = 0;
    while (((size_t)2 << k) <= n) k++;
    size_t p = (size_t)1 << k;
    return times(brw_part(powers, list, p - 1), from_bytes(list + 16 * (p - 1)) ^ powers[k]) ^ brw_part(powers, list + 16 * p, n - p);
}

static block brw(block t, const uint8_t *list, size_t n) {
    block powers[64];
    powers[0] = t;
    for (size_t i = 1; n >= 3 && ((size_t)1 << i) <= n; i++) powers[i] = times(powers[i - 1], powers[i - 1]);
    return brw_part(powers, list, n);
}

static block tail_hash(const method *m, block t, uint64_t sector, const uint8_t *tail, uint8_t *working, size_t n) {
    memcpy(working, tail, 16 * n);
    to_bytes(sector, working + 16 * n);
    return times(t, m->hash == 1 ? horner(t, working, n + 1) : brw(t, working, n + 1));
}

static void counter(const method *m, block z, const uint8_t *tail, uint8_t *output, size_t n) {
    for (size_t i = 0; i < n; i++) to_bytes(from_bytes(tail + 16 * i) ^ call(m, z ^ (i + 1)), output + 16 * i);
}

static block start(method *m, int cipher, int hash, const uint8_t key[16]) {
    m->cipher = cipher;
    m->hash = hash;
    m->key = from_bytes(key);
    if (cipher == 1) expand(key, &m->rows);
    return call(m, from_bytes((const uint8_t *)"LENS HEAD SECTOR"));
}

void reference_middle(int cipher, int hash, const uint8_t key[16], uint64_t sector, const uint8_t *text,
                      uint8_t *working, size_t length, uint8_t values[6][16]) {
    method m;
    block t = start(&m, cipher, hash, key);
    block a1 = from_bytes(text) ^ tail_hash(&m, t, sector, text + 32, working, length / 16 - 2);
    block a2 = from_bytes(text + 16) ^ times(t, a1);
    block b1 = a1 ^ call(&m, a2);
    block b2 = a2 ^ call(&m, b1);
    block all[6] = {t, a1, a2, b1, b2, b1 ^ b2};
    for (int i = 0; i < 6; i++) to_bytes(all[i], values[i]);
}

void reference_encipher(int cipher, int hash, const uint8_t key[16], uint64_t sector, const uint8_t *text,
                        uint8_t *output, uint8_t *working, size_t length) {
    method m;
    size_t n = length / 16 - 2;
    block t = start(&m, cipher, hash, key);
    block a1 = from_bytes(text) ^ tail_hash(&m, t, sector, text + 32, working, n);
    block a2 = from_bytes(text + 16) ^ times(t, a1);
    block b1 = a1 ^ call(&m, a2);
    block b2 = a2 ^ call(&m, b1);
    counter(&m, b1 ^ b2, text + 32, output + 32, n);
    block h = times(t, tail_hash(&m, t, sector, output + 32, working, n));
    to_bytes(b1 ^ times(t, b2), output);
    to_bytes(b2 ^ h, output + 16);
    memset(working, 0, length - 16);
}

void reference_decipher(int cipher, int hash, const uint8_t key[16], uint64_t sector, const uint8_t *text,
                        uint8_t *output, uint8_t *working, size_t length) {
    method m;
    size_t n = length / 16 - 2;
    block t = start(&m, cipher, hash, key);
    block b2 = from_bytes(text + 16) ^ times(t, tail_hash(&m, t, sector, text + 32, working, n));
    block b1 = from_bytes(text) ^ times(t, b2);
    counter(&m, b1 ^ b2, text + 32, output + 32, n);
    block a2 = b2 ^ call(&m, b1);
    block a1 = b1 ^ call(&m, a2);
    to_bytes(a1 ^ tail_hash(&m, t, sector, output + 32, working, n), output);
    to_bytes(a2 ^ times(t, a1), output + 16);
    memset(working, 0, length - 16);
}
