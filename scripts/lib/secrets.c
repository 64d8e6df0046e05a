/* Calls one primitive (secrets.rattle) with octets that valgrind takes for undefined, and so for secret. memcheck then reports each branch and
   each address that depends on one of them.

   secrets NAME [NUMBER [WRONG]]   NUMBER is the number of an algorithm. With WRONG the tag, or the encrypted key, has a wrong octet. */
#include <stdbool.h>
#include <stddef.h>
#include <stdint.h>
#include <stdio.h>
#include <stdlib.h>
#include <string.h>
#include <valgrind/memcheck.h>

typedef uint32_t primitive(const uint8_t *key, size_t key_length, const uint8_t *more, size_t more_length, uint8_t *data, size_t data_length);
#define PRIMITIVES(X) \
    X(aes128) X(aes192) X(aes256) X(ctr) X(ghash) X(gcm) X(gcm_open) X(cbc) X(cbc_open) X(same_octets) X(hmac_sha256) X(hmac_sha384) X(hmac_sha512) \
    X(seal) X(open) X(wrap) X(unwrap)
#define DECLARED(name) primitive secret_##name;
PRIMITIVES(DECLARED)
#define ROW(name) {#name, secret_##name},
static const struct {
    const char *name;
    primitive *call;
} ROWS[] = {PRIMITIVES(ROW)};

/* The lengths of content encryption keys, of keys that wrap, and of tags, by the numbers of the algorithms. */
static const size_t CEK[] = {32, 48, 64, 16, 24, 32}, KEK[] = {16, 24, 32, 16, 24, 32, 20, 20, 20}, TAG[] = {16, 24, 32, 16, 16, 16};
enum { TEXT = 528, ROOM = TEXT + 48 };

int main(int count, char **words) {
    static uint8_t key[64], more[1 + 32], data[ROOM];
    const char *name = count > 1 ? words[1] : "";
    size_t number = count > 2 ? strtoul(words[2], NULL, 10) : 0, key_length = 32, more_length = 1, length = TEXT, at = 0;
    bool wrong = count > 3, opens = strstr(name, "open"), unwraps = !strcmp(name, "unwrap");
    for (size_t i = 0; i < sizeof key; i++) key[i] = (uint8_t)(7 * i + 1);
    for (size_t i = 0; i < sizeof data; i++) data[i] = (uint8_t)(13 * i + 5);
    more[0] = (uint8_t)number;
    if (!strcmp(name, "seal") || !strcmp(name, "open")) {
        key_length = CEK[number];
        length = ROOM;
    } else if (!strcmp(name, "wrap") || unwraps) {
        key_length = KEK[number];
        length = 88;
    } else if (!strcmp(name, "same_octets")) {
        key_length = TEXT;
    }
    /* What is opened was sealed before, when nothing was secret yet. */
    if (!strcmp(name, "open")) {
        if (!secret_seal(key, key_length, more, 1, data, length)) return 3;
        memcpy(more + 1, data + TEXT + 16, TAG[number]);
        more_length = 1 + TAG[number];
        length = number < 3 ? TEXT + 16 : TEXT;
    } else if (!strcmp(name, "gcm_open")) {
        static uint8_t sealed[ROOM];
        memcpy(sealed, data, TEXT);
        more[0] = 3;
        if (!secret_seal(key, 16, more, 1, sealed, ROOM)) return 3;
        memcpy(data, sealed, TEXT);
        memcpy(more, sealed + TEXT + 16, 16);
        more_length = 16;
    } else if (!strcmp(name, "cbc_open")) {
        more[0] = 0;
        static uint8_t both[32];
        memcpy(both + 16, key, 16);
        if (!secret_seal(both, 32, more, 1, data, ROOM)) return 3;
        length = TEXT + 16;
    } else if (unwraps) {
        if (!secret_wrap(key, key_length, more, 1, data, length)) return 3;
        memcpy(more + 1, data + 72, 16);
        more_length = 17;
    }
    if (wrong && opens) more[more_length - 1] ^= 1;
    if (wrong && unwraps) data[9] ^= 1;
    VALGRIND_MAKE_MEM_UNDEFINED(key, sizeof key);
    VALGRIND_MAKE_MEM_UNDEFINED(data, sizeof data);
    while (at < sizeof ROWS / sizeof *ROWS && strcmp(ROWS[at].name, name)) at++;
    if (at == sizeof ROWS / sizeof *ROWS) return 2;
    uint32_t answer = ROWS[at].call(key, key_length, more, more_length, data, length);
    /* Whether it opened is known from here on. */
    VALGRIND_MAKE_MEM_DEFINED(&answer, sizeof answer);
    printf("%u\n", answer);
    return 0;
}
