/* Enciphers a sector, deciphers it again, and tries a refusal: a caller in C.
 *
 *   tools/staticlib
 *   cc -I crates/capi/include examples/sector.c target/staticlib/libcapi.a -o target/sector-c
 */
#include <stdio.h>
#include <string.h>

#include "kizdolur.h"

int main(void) {
    uint8_t key[16], text[64], enciphered[64], again[64], working[48];
    for (int i = 0; i < 16; i++) key[i] = (uint8_t)i;
    for (int i = 0; i < 64; i++) text[i] = (uint8_t)i;
    uint8_t answer = kizdolur_encipher(KIZDOLUR_AES128, KIZDOLUR_BRW, key, sizeof key, 7, text, sizeof text,
                                       enciphered, sizeof enciphered, working, sizeof working);
    printf("encipher %d ", answer);
    for (int i = 0; i < 64; i++) printf("%02X", enciphered[i]);
    answer = kizdolur_decipher(KIZDOLUR_AES128, KIZDOLUR_BRW, key, sizeof key, 7, enciphered, sizeof enciphered,
                               again, sizeof again, working, sizeof working);
    printf("\ndecipher %d %s\n", answer, memcmp(again, text, sizeof text) == 0 ? "the same text" : "another text");
    answer = kizdolur_encipher(KIZDOLUR_AES128, KIZDOLUR_BRW, key, 15, 7, text, sizeof text,
                               enciphered, sizeof enciphered, working, sizeof working);
    printf("a key of 15 bytes %d\n", answer);
    return 0;
}
