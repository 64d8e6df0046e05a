/* Makes a key of 100 octets and an object for a set of keys, which is the first word, by a template, which is the second. It prints both in
   a line, or why they were refused. With a third word, eight threads do so. It is compiled as C and as C++. */
#include "lakhdzeva.h"

#include <pthread.h>
#include <stdio.h>
#include <string.h>

static char **words;

static void *draw(void *nothing) {
    char key[8192], object[8192];
    size_t length[2];
    uint32_t status[2] = {lakhdzeva_generate("{\"bytes\":100}", 13, key, sizeof key, &length[0]),
        lakhdzeva_encrypt(words[1], strlen(words[1]), words[2], strlen(words[2]), 0, "hello", 5, object, sizeof object, &length[1], NULL, 0, NULL)};
    if (status[0]) length[0] = (size_t)sprintf(key, "%u %s", (unsigned)status[0], lakhdzeva_name(status[0]));
    if (status[1]) length[1] = (size_t)sprintf(object, "%u %s", (unsigned)status[1], lakhdzeva_name(status[1]));
    printf("%.*s\t%.*s\n", (int)length[0], key, (int)length[1], object);
    return nothing;
}

int main(int count, char **given) {
    words = given;
    if (count == 3) return draw(NULL) != NULL;
    pthread_t threads[8];
    for (int at = 0; at < 8; at++)
        if (pthread_create(&threads[at], NULL, draw, NULL)) return 1;
    for (int at = 0; at < 8; at++) pthread_join(threads[at], NULL);
    return 0;
}
