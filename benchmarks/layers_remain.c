/* Loaded before the C library into `layer_costs` (LD_PRELOAD): when that program prints, its reads and writes are over, and the
 * stack below this call is dead. It is searched for what the layers had there, in pieces as `remains` does. The program has
 * painted nothing, but a stack begins as zeros. The words come from the environment: LAYERS_CIPHER, LAYERS_LENGTH. */
#include <stdio.h>
#include <stdlib.h>
#include <string.h>
#include <sys/syscall.h>
#include <unistd.h>

#include "reference.h"

static const uint8_t *low, *high;

static void bounds(void) {
    char line[512];
    unsigned long from, to;
    FILE *maps = fopen("/proc/self/maps", "r");
    while (maps && fgets(line, sizeof line, maps))
        if (strstr(line, "[stack]") && sscanf(line, "%lx-%lx", &from, &to) == 2) low = (const uint8_t *)from;
    if (maps) fclose(maps);
}

static int lies(const uint8_t *bytes, size_t n) {
    uint8_t turned[16];
    for (size_t i = 0; i < n; i++) turned[i] = bytes[n - 1 - i];
    for (const uint8_t *p = low; p + n <= high; p++)
        if (memcmp(p, bytes, n) == 0 || memcmp(p, turned, n) == 0) return 1;
    return 0;
}

static void found(const char *what, const uint8_t *bytes, size_t all, size_t piece) {
    int n = 0;
    for (size_t i = 0; i + piece <= all; i += piece) n += lies(bytes + i, piece);
    fprintf(stderr, "  %s %d/%zu", what, n, all / piece);
}

static void look(void) {
    static uint8_t middle[6][16], powers[7][16], rows[176], plain[4096], working[4096];
    static uint64_t keys[32];
    const uint8_t *key = (const uint8_t *)"key of a device!";
    int cipher = atoi(getenv("LAYERS_CIPHER"));
    size_t length = (size_t)atoi(getenv("LAYERS_LENGTH"));
    for (size_t i = 0; i < length; i++) plain[i] = (uint8_t)(i % 251);
    reference_middle(cipher, 2, key, 3, plain, working, length, middle);
    reference_product(middle[0], middle[0], powers[0]);
    for (int i = 1; i < 7; i++) reference_product(powers[i - 1], powers[i - 1], powers[i]);
    reference_aes128_rows(key, rows);
    reference_speck128_keys(key, keys);
    found("key", key, 16, 8);
    if (cipher == 1) {
        found("round-keys", rows + 16, 160, 4);
    } else {
        found("round-keys", (uint8_t *)(keys + 1), 248, 8);
    }
    found("hash-key", middle[0], 16, 8);
    found("powers", powers[0], 112, 8);
    found("front", plain, 32, 8);
    found("tail", plain + 32, length - 32, 8);
    fprintf(stderr, "\n");
}

/* The copy is taken before anything here can overwrite it. */
ssize_t write(int file, const void *bytes, size_t n) {
    static uint8_t copy[1 << 17];
    static int done;
    const uint8_t *here = __builtin_frame_address(0);
    if (!done && file == 1 && getenv("LAYERS_CIPHER")) {
        done = 1;
        bounds();
        const uint8_t *from = (size_t)(here - low) > sizeof copy ? here - sizeof copy : low;
        size_t all = (size_t)(here - from);
        for (size_t i = 0; i < all; i++) copy[i] = ((const volatile uint8_t *)from)[i];
        low = copy;
        high = copy + all;
        look();
    }
    return syscall(SYS_write, file, bytes, n);
}
