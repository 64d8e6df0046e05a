/* Writes what key_of_secret.c makes of secrets of 0 to 99 bytes, a line each, with what the library says that the key may do. */
#include <lakhdzeva.h>
#include <stdio.h>
#include <stdlib.h>
#include <string.h>

char *key_of_secret(const unsigned char *secret, size_t length, const char *alg);

int main(void) {
    for (size_t length = 0; length < 100; length++) {
        unsigned char *secret = malloc(length + !length), uses[1] = {0};
        if (!secret) return 4;
        for (size_t i = 0; i < length; i++) secret[i] = (unsigned char)(i * 37 + 251 + length);
        char *text = key_of_secret(secret, length, "HS256");
        size_t members = 0;
        if (!text) return 4;
        enum lakhdzeva_status status = lakhdzeva_judge_keys(text, strlen(text), uses, sizeof uses, &members);
        printf("%s\t%u\t%d\n", text, status, uses[0] & LAKHDZEVA_MAY_VERIFY);
        free(text), free(secret);
    }
    return 0;
}
