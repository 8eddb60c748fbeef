/* remains: what a call leaves on the stack. Each call runs on a stack of its own, which is filled with a pattern before; after
 * it the whole stack is searched for secrets. A secret of 16 bytes is looked for as two halves of 8 bytes, in the order of
 * its bytes and in the other; round keys of AES also word by word. Printed are, for each kind, the halves (or words) found,
 * of how many, and how deep the stack was used. Registers are not looked at. The same for plain C, which shows that the
 * search finds what is there. */
#include <stdio.h>
#include <stdlib.h>
#include <string.h>
#include <ucontext.h>

#include "kizdolur.h"
#include "reference.h"

enum { STACK = 1 << 18, LENGTH = 4096, BLOCKS = LENGTH / 16, PATTERN = 0xa5 };

static _Alignas(64) uint8_t stack[STACK];
static ucontext_t caller, callee;
static uint8_t plain[LENGTH], text[LENGTH], output[LENGTH], working[LENGTH], key[16];
static uint8_t direction, cipher, hash, answer;
static int plain_c;

static void run_block(void) {
    answer = (cipher == 1 ? kizdolur_aes128_block : kizdolur_speck128_block)(key, 16, plain, 16, output, 16);
}

static void run_c(void) {
    answer = 0;
    (direction ? reference_encipher : reference_decipher)(cipher, hash, key, 7, text, output, working, LENGTH);
}

static void run(void) {
    answer = (direction ? kizdolur_encipher : kizdolur_decipher)(cipher, hash, key, 16, 7, text, LENGTH, output, LENGTH,
                                                                   working, LENGTH - 16);
}

static void call_on_own_stack(void (*run)(void)) {
    memset(stack, PATTERN, sizeof stack);
    getcontext(&callee);
    callee.uc_stack.ss_sp = stack;
    callee.uc_stack.ss_size = sizeof stack;
    callee.uc_link = &caller;
    makecontext(&callee, run, 0);
    swapcontext(&caller, &callee);
    if (answer) exit(3);
}

static size_t used_from(void) {
    size_t i = 0;
    while (i < STACK && stack[i] == PATTERN) i++;
    return i;
}

/* whether n bytes lie somewhere on the used stack, in either order */
static int lies(const uint8_t *bytes, size_t n) {
    uint8_t turned[16];
    for (size_t i = 0; i < n; i++) turned[i] = bytes[n - 1 - i];
    for (size_t i = used_from(); i + n <= STACK; i++)
        if (memcmp(stack + i, bytes, n) == 0 || memcmp(stack + i, turned, n) == 0) return 1;
    return 0;
}

static void found(const char *what, const uint8_t *bytes, size_t all, size_t piece) {
    int n = 0;
    for (size_t i = 0; i + piece <= all; i += piece) n += lies(bytes + i, piece);
    printf("  %s %d/%zu", what, n, all / piece);
}

static void look_for_keys(void) {
    uint8_t rows[176];
    uint64_t keys[32];
    found("key", key, 16, 8);
    if (cipher == 1) {
        reference_aes128_rows(key, rows);
        found("round-keys", rows + 16, 160, 4);
    } else {
        reference_speck128_keys(key, keys);
        found("round-keys", (uint8_t *)(keys + 1), 248, 8);
    }
}

static void look(void) {
    uint8_t middle[6][16], powers[8][16], masks[LENGTH - 32];
    reference_middle(cipher, hash, key, 7, plain, working, LENGTH, middle);
    memset(working, 0, LENGTH - 16);
    reference_product(middle[0], middle[0], powers[0]);
    for (int i = 1; i < 7; i++) reference_product(powers[i - 1], powers[i - 1], powers[i]);
    const uint8_t *enciphered = direction ? output : text;
    for (size_t i = 32; i < LENGTH; i++) masks[i - 32] = plain[i] ^ enciphered[i];
    printf("%-4s %s %-5s %-6s  stack %5zu ", plain_c ? "C" : "ours", direction ? "encipher" : "decipher", cipher == 1 ? "aes" : "speck",
           hash == 1 ? "horner" : "brw", (size_t)STACK - used_from());
    look_for_keys();
    found("hash-key", middle[0], 16, 8);
    found("powers", powers[0], 112, 8);
    found("front", plain, 32, 8);
    found("tail", plain + 32, LENGTH - 32, 8);
    found("masks", masks, sizeof masks, 8);
    found("A,B,Z", middle[1], 80, 8);
    printf("\n");
}

static void sectors(void) {
    for (cipher = 1; cipher <= 2; cipher++)
        for (hash = 1; hash <= 2; hash++)
            for (direction = 1; direction != 255; direction--) {
                for (size_t i = 0; i < sizeof plain; i++) plain[i] = (uint8_t)rand();
                for (size_t i = 0; i < sizeof key; i++) key[i] = (uint8_t)rand();
                if (direction) {
                    memcpy(text, plain, LENGTH);
                } else {
                    reference_encipher(cipher, hash, key, 7, plain, text, working, LENGTH);
                }
                memset(working, 0, LENGTH);
                call_on_own_stack(plain_c ? run_c : run);
                look();
            }
}

int main(void) {
    srand(5);
    sectors();
    for (cipher = 1; cipher <= 2; cipher++) {
        call_on_own_stack(run_block);
        printf("ours one block %-5s        stack %5zu ", cipher == 1 ? "aes" : "speck", (size_t)STACK - used_from());
        look_for_keys();
        found("plain", plain, 16, 8);
        printf("\n");
    }
    plain_c = 1;
    sectors();
    return 0;
}
