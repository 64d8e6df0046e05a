/* The key of a secret that somebody gave you, as the JSON text that the functions of lakhdzeva.h take. Copy the function. */
#include <stdio.h>
#include <stdlib.h>
#include <string.h>

/* Returns the text of a key with these bytes, for one algorithm, such as "HS256". The caller wipes and frees it. Without memory it is NULL. */
char *key_of_secret(const unsigned char *secret, size_t length, const char *alg) {
    static const char digits[] = "ABCDEFGHIJKLMNOPQRSTUVWXYZabcdefghijklmnopqrstuvwxyz0123456789-_";
    static const char before[] = "{\"kty\":\"oct\",\"alg\":\"%s\",\"k\":\"", behind[] = "\"}";
    char *text = malloc(sizeof before + strlen(alg) + 4 * (length / 3 + 1) + sizeof behind);
    if (!text) return NULL;
    char *end = text + sprintf(text, before, alg);
    unsigned bits = 0, count = 0;
    for (size_t i = 0; i < length; i++) {
        bits = bits << 8 | secret[i];
        for (count += 8; count >= 6; count -= 6) *end++ = digits[bits >> (count - 6) & 63];
    }
    if (count) *end++ = digits[bits << (6 - count) & 63];
    memcpy(end, behind, sizeof behind);
    return text;
}
