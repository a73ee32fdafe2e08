/* What the radio firmware does, through the C face: issues a tag, enciphers and deciphers a text, wraps and unwraps a key. */
#include "muchqawi.h"
#include <stdio.h>
#include <string.h>

static void show(const char *what, const uint8_t *octets, size_t n) {
    printf("%-10s", what);
    for (size_t i = 0; i < n; i++) printf("%02X", octets[i]);
    printf("\n");
}

static int failed(const char *what, uint8_t answer) {
    if (answer) printf("%s was refused with %u\n", what, answer);
    return answer != 0;
}

int main(void) {
    const uint8_t key[32] = "a key that is only for examples.";
    const uint8_t text[] = "door 7 at night, and door 12 by day";
    const size_t size = sizeof text - 1;
    uint8_t tag[MUCHQAWI_TAG], cipher[64], plain[64], wrapped[64], fresh[64], scratch[MUCHQAWI_SCRATCH], hash[MUCHQAWI_HASH];

    if (failed("issuing", muchqawi_issue(key, 32, 1, 7, 1000, tag, sizeof tag))) return 1;
    show("tag", tag, sizeof tag);

    if (failed("CTR", muchqawi_ctr_encrypt(key, 32, 5, 1, text, size, cipher, sizeof cipher))) return 1;
    show("CTR", cipher, size);
    if (failed("CTR back", muchqawi_ctr_decrypt(key, 32, 5, 1, cipher, size, plain, sizeof plain))) return 1;
    printf("%-10s%.*s\n", "back", (int)size, plain);

    if (failed("CBC", muchqawi_cbc_encrypt(key, 32, 5, 1, text, size, cipher, sizeof cipher))) return 1;
    show("CBC", cipher, size);

    if (failed("hashing", muchqawi_hash(text, size, hash, sizeof hash))) return 1;
    show("hash", hash, sizeof hash);

    if (failed("wrapping", muchqawi_wrap(key, 32, 7, 0, key, 32, wrapped, sizeof wrapped))) return 1;
    show("wrapped", wrapped, 48);
    if (failed("unwrapping", muchqawi_unwrap(key, 32, 7, 0, wrapped, 48, scratch, sizeof scratch, fresh, sizeof fresh))) return 1;
    printf("%-10s%s\n", "unwrapped", memcmp(fresh, key, 32) ? "another key" : "the same key");

    wrapped[3] ^= 1;
    printf("%-10s%u\n", "damaged", muchqawi_unwrap(key, 32, 7, 0, wrapped, 48, scratch, sizeof scratch, fresh, sizeof fresh));
    printf("%-10s%u\n", "key of 31", muchqawi_issue(key, 31, 1, 7, 1000, tag, sizeof tag));
    return 0;
}
