/* measure MODE WHO [SET]: goes through a list of works and says what each costs.
 *   MODE  count: each work once between two requests to callgrind, which dumps its counters under the work's label;
 *         time: prints each label and the seconds that it takes, the least of five rounds
 *   WHO   ours, or reference (plain C), or openssl (where it was compiled in)
 *   SET   main (the default), or lengths: every length that a sector may have
 * A label is product, aes, speck, empty, or DIRECTION-CIPHER-HASH-LENGTH. */
#include <stdio.h>
#include <stdlib.h>
#include <string.h>
#include <time.h>
#include <valgrind/callgrind.h>

#include "kizdolur.h"
#include "reference.h"
#ifdef WITH_OPENSSL
#include <openssl/evp.h>
#endif

enum { MOST = 4096 };
static const uint8_t key[32] = {0x66, 0xe9, 0x4b, 0xd4, 0xef, 0x8a, 0x2c, 0x3b, 0x88, 0x4c, 0xfa,
                                0x59, 0xca, 0x34, 0x2b, 0x2e, 0x01, 0x02, 0x03, 0x04, 0x05};
static const uint8_t long_key[64] = {0x66, 0xe9, 0x4b, 0xd4, [32] = 0x01, 0x02, 0x03};
static uint8_t text[MOST], output[MOST], working[MOST];

typedef struct {
    char label[48];
    int encipher, cipher, hash;
    size_t length;
} work;

static int counting;
static const char *who;

#ifdef WITH_OPENSSL
static EVP_CIPHER_CTX *contexts[2][2];

static void prepare(void) {
    for (int wide = 0; wide < 2; wide++)
        for (int e = 0; e < 2; e++) {
            contexts[wide][e] = EVP_CIPHER_CTX_new();
            EVP_CipherInit_ex(contexts[wide][e], wide ? EVP_aes_256_xts() : EVP_aes_128_xts(), NULL,
                              wide ? long_key : key, NULL, e);
        }
}

/* the key stays in its context; each sector sets its number */
static void xts(const work *w) {
    uint8_t number[16] = {7};
    int n;
    EVP_CIPHER_CTX *c = contexts[w->hash == 2][w->encipher];
    if (!EVP_CipherInit_ex(c, NULL, NULL, NULL, number, -1)) exit(3);
    if (!EVP_CipherUpdate(c, output, &n, text, (int)w->length) || (size_t)n != w->length) exit(3);
}
#else
static void prepare(void) {}
static void xts(const work *w) { (void)w; }
#endif

static void ours(const work *w) {
    uint8_t answer;
    switch (w->cipher) {
    case -1: return;
    case -2: answer = kizdolur_block_product(text, 16, key, 16, output, 16); break;
    case -3: answer = kizdolur_aes128_block(key, 16, text, 16, output, 16); break;
    case -4: answer = kizdolur_speck128_block(key, 16, text, 16, output, 16); break;
    default:
        answer = (w->encipher ? kizdolur_encipher : kizdolur_decipher)(
            (uint8_t)w->cipher, (uint8_t)w->hash, key, 16, 7, text, w->length, output, w->length, working, w->length - 16);
    }
    if (answer) exit(3);
}

static void reference(const work *w) {
    switch (w->cipher) {
    case -1: return;
    case -2: reference_product(text, key, output); break;
    case -3: reference_aes128(key, text, output); break;
    case -4: reference_speck128(key, text, output); break;
    default:
        (w->encipher ? reference_encipher : reference_decipher)(w->cipher, w->hash, key, 7, text, output, working, w->length);
    }
}

static double seconds(void (*call)(const work *), const work *w, long count) {
    struct timespec a, b;
    clock_gettime(CLOCK_PROCESS_CPUTIME_ID, &a);
    for (long i = 0; i < count; i++) call(w);
    clock_gettime(CLOCK_PROCESS_CPUTIME_ID, &b);
    return (double)(b.tv_sec - a.tv_sec) + (double)(b.tv_nsec - a.tv_nsec) * 1e-9;
}

static void measure(const char *label, int encipher, int cipher, int hash, size_t length) {
    work w = {.encipher = encipher, .cipher = cipher, .hash = hash, .length = length};
    void (*call)(const work *) = cipher == 9 ? xts : strcmp(who, "ours") == 0 ? ours : reference;
    static const char *ciphers[] = {"", "aes", "speck"}, *hashes[] = {"", "horner", "brw"};
    if (label) {
        snprintf(w.label, sizeof w.label, "%s", label);
    } else if (cipher == 9) {
        snprintf(w.label, sizeof w.label, "%s-aes%s-xts-%zu", encipher ? "encipher" : "decipher", hash == 2 ? "256" : "128", length);
    } else {
        snprintf(w.label, sizeof w.label, "%s-%s-%s-%zu", encipher ? "encipher" : "decipher", ciphers[cipher], hashes[hash], length);
    }
    call(&w);
    if (counting) {
        CALLGRIND_ZERO_STATS;
        call(&w);
        CALLGRIND_DUMP_STATS_AT(w.label);
        return;
    }
    long count = 1;
    while (seconds(call, &w, count) < 0.01) count *= 2;
    double least = 1e9;
    for (int i = 0; i < 5; i++) {
        double s = seconds(call, &w, count) / (double)count;
        if (s < least) least = s;
    }
    printf("%s %.12f\n", w.label, least);
}

static void sectors(size_t length, int both) {
    int openssl = strcmp(who, "openssl") == 0;
    for (int cipher = openssl ? 9 : 1; cipher <= (openssl ? 9 : 2); cipher++)
        for (int hash = 1; hash <= 2; hash++)
            for (int e = 1; e >= !both; e--) measure(NULL, e, cipher, hash, length);
}

int main(int argc, char **argv) {
    if (argc < 3) return 2;
    counting = strcmp(argv[1], "count") == 0;
    who = argv[2];
    for (size_t i = 0; i < sizeof text; i++) text[i] = (uint8_t)(i * 37 + (i >> 8));
    if (strcmp(who, "openssl") == 0) {
        prepare();
    } else {
        measure("empty", 0, -1, 0, 0);
        measure("product", 0, -2, 0, 16);
        measure("aes", 0, -3, 0, 16);
        measure("speck", 0, -4, 0, 16);
    }
    if (argc > 3 && strcmp(argv[3], "lengths") == 0) {
        for (size_t n = 64; n <= MOST; n += 16) sectors(n, 1);
    } else {
        for (size_t n = 64; n <= MOST; n *= 2) sectors(n, n == 64 || n == MOST);
    }
    return 0;
}
