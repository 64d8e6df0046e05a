/* Measures the calls of the library for C in one process: microseconds for each, the best of many short rounds. The keys are read from their JSON
   in each call. Prints a line for each call: its name, the octets of the content, and the microseconds. */
#define _GNU_SOURCE
#include "lakhdzeva.h"

#include <stdio.h>
#include <stdlib.h>
#include <string.h>
#include <time.h>

#define KEY "{\"kty\":\"oct\",\"k\":\"AyM1SysPpbyDfgZld3umj1qzKObwVMkoqQ-EstJQLr_T-1qS0gZH75aKtMN3Yj0iPS4hcgUuTwjAzZr1Z9CAow\",\"alg\":\"HS256\"}"
#define WRAP "{\"kty\":\"oct\",\"k\":\"GawgguFyGrWKav7AX4VKUg\",\"alg\":\"A128KW\"}"
#define DIRECT "{\"kty\":\"oct\",\"k\":\"AAECAwQFBgcICQoLDA0ODxAREhMUFRYXGBkaGxwdHh8\",\"alg\":\"A256GCM\"}"
#define TEXT(text) (text), sizeof(text) - 1

enum { ROOM = 1 << 15 };
static char content[ROOM], token[ROOM], sealed[ROOM], direct[ROOM], place[ROOM];
static size_t size, token_length, sealed_length, direct_length, length;

static uint32_t sign(void) {
    return lakhdzeva_sign(TEXT(KEY), NULL, 0, LAKHDZEVA_COMPACT, content, size, token, ROOM, &token_length);
}

static uint32_t verify(void) {
    return lakhdzeva_verify(TEXT(KEY), token, token_length, 0, place, ROOM, &length);
}

static uint32_t encrypt(void) {
    return lakhdzeva_encrypt(TEXT(WRAP), NULL, 0, LAKHDZEVA_COMPACT, content, size, sealed, ROOM, &sealed_length, NULL, 0, NULL);
}

static uint32_t decrypt(void) {
    return lakhdzeva_decrypt(TEXT(WRAP), sealed, sealed_length, NULL, 0, 0, place, ROOM, &length);
}

static uint32_t encrypt_directly(void) {
    return lakhdzeva_encrypt(TEXT(DIRECT), NULL, 0, LAKHDZEVA_COMPACT, content, size, direct, ROOM, &direct_length, NULL, 0, NULL);
}

static uint32_t decrypt_directly(void) {
    return lakhdzeva_decrypt(TEXT(DIRECT), direct, direct_length, NULL, 0, 0, place, ROOM, &length);
}

static uint32_t format(void) {
    return lakhdzeva_format_signed(token, token_length, NULL, 0, 0, place, ROOM, &length, NULL, 0, NULL);
}

static uint32_t format_sealed(void) {
    return lakhdzeva_format_encrypted(sealed, sealed_length, NULL, 0, 0, place, ROOM, &length, NULL, 0, NULL);
}

static uint32_t thumbprint(void) {
    return lakhdzeva_thumbprints(TEXT(KEY), 256, place, ROOM, &length);
}

static uint32_t generate(void) {
    return lakhdzeva_generate(TEXT("{\"alg\":\"HS256\"}"), place, ROOM, &length);
}

static const struct {
    const char *name;
    uint32_t (*call)(void);
} CALLS[] = {
    {"sign HS256", sign},
    {"verify HS256", verify},
    {"encrypt A128KW, A128CBC-HS256", encrypt},
    {"decrypt A128KW, A128CBC-HS256", decrypt},
    {"encrypt dir, A256GCM", encrypt_directly},
    {"decrypt dir, A256GCM", decrypt_directly},
    {"format a signed object", format},
    {"format an encrypted object", format_sealed},
    {"thumbprint", thumbprint},
    {"generate", generate},
};

static double now(void) {
    struct timespec time;
    clock_gettime(CLOCK_MONOTONIC, &time);
    return (double)time.tv_sec + (double)time.tv_nsec * 1e-9;
}

int main(int count, char **words) {
    memset(content, 'a', sizeof content);
    for (int at = 1; at < count; at++) {
        size = (size_t)atoi(words[at]);
        for (size_t call = 0; call < sizeof CALLS / sizeof *CALLS; call++) {
            double best = 1e9;
            for (int round = 0; round < 200; round++) {
                double start = now();
                for (int turn = 0; turn < 50; turn++)
                    if (CALLS[call].call()) return fprintf(stderr, "%s is refused\n", CALLS[call].name), 1;
                double each = (now() - start) / 50;
                best = each < best ? each : best;
            }
            printf("%s\t%zu\t%.2f\n", CALLS[call].name, size, best * 1e6);
        }
    }
    return 0;
}
