/* Calls a function of lakhdzeva.h: call FUNCTION WORD.. It answers as a command does: with status 0, or with status 1 and a line that names
   the refusal. The words are, in the order of the header:
   - a file for each text, or `-` for NULL. Texts at the end may be left out;
   - the number of the function, which is its flags, bits, signers or iterations, and the size of each buffer, if it is not 256 MiB;
   - `o` and `O`, files for the answers.

   The call runs on a stack of its own, which is zero before it. Status 3 says that it took more of the stack than it may, holds memory, or
   left a wrong length or octets in a buffer. Nothing here asks for memory, so that what lib/measure.c and lib/refuse.c count is the
   library's. */
#include "lakhdzeva.h"

#include <fcntl.h>
#include <pthread.h>
#include <stdio.h>
#include <stdlib.h>
#include <string.h>
#include <unistd.h>

enum { TEXTS = 4, TEXT = 1 << 26, ROOM = 1 << 28, SEEN = 1 << 16, STACK = 1 << 20, MOST_STACK = 192 << 10, PAGE = 4096 };

/* What lib/measure.c and lib/refuse.c say of the memory that the program holds. */
size_t held_now(void) __attribute__((weak));

static uint8_t octets[TEXTS][TEXT], places[2][ROOM + SEEN], zeros[SEEN], stack[STACK] __attribute__((aligned(PAGE)));
static struct {
    const void *start;
    size_t length;
} texts[TEXTS];
static size_t lengths[2], room = ROOM, held, kept;
static unsigned long long number;

#define T(at) texts[at].start, texts[at].length
#define P(at) places[at], room, &lengths[at]
#define IS(function, ...) if (!strcmp(name, #function)) return function(__VA_ARGS__)

static uint32_t call(const char *name) {
    IS(lakhdzeva_generate, T(0), P(0));
    IS(lakhdzeva_generate_with_random, T(0), T(1), P(0));
    IS(lakhdzeva_thumbprints, T(0), number, P(0));
    IS(lakhdzeva_judge_keys, T(0), P(0));
    IS(lakhdzeva_sign, T(0), T(1), number, T(2), P(0));
    IS(lakhdzeva_verify, T(0), T(1), number, P(0));
    IS(lakhdzeva_verify_detached, T(0), T(1), number, T(2));
    IS(lakhdzeva_verify_signer, T(0), T(1), P(0), &lengths[1]);
    IS(lakhdzeva_verify_all, T(0), number, T(1), P(0));
    IS(lakhdzeva_verify_all_detached, T(0), number, T(1), T(2));
    IS(lakhdzeva_format_signed, T(0), T(1), number, P(0), P(1));
    IS(lakhdzeva_encrypt, T(0), T(1), number, T(2), P(0), P(1));
    IS(lakhdzeva_encrypt_with_random, T(0), T(1), number, T(2), T(3), P(0), P(1));
    IS(lakhdzeva_decrypt, T(0), T(1), T(2), number, P(0));
    IS(lakhdzeva_format_encrypted, T(0), T(1), number, P(0), P(1));
    exit(2);
}

static void *run(void *name) {
    held = held_now ? held_now() : 0;
    uint32_t status = call(name);
    kept = held_now ? held_now() - held : 0;
    return (void *)(uintptr_t)status;
}

static void wrong(const char *what, size_t count) {
    dprintf(2, "%s: %zd octets\n", what, (ssize_t)count);
    exit(3);
}

int main(int count, char **words) {
    const char *outputs[2] = {NULL, NULL};
    int numbers = 0, given = 0;
    for (int at = 2; at < count; at++) {
        const char *word = words[at];
        if (!strcmp(word, "o") || !strcmp(word, "O")) outputs[*word == 'O'] = word;
        else if (*word >= '0' && *word <= '9' && numbers++) room = strtoull(word, NULL, 10);
        else if (*word >= '0' && *word <= '9') number = strtoull(word, NULL, 10);
        else if (given++, *word != '-') {
            int file = open(word, O_RDONLY);
            ssize_t got = file < 0 ? -1 : read(file, octets[given - 1], TEXT);
            if (got < 0 || got == TEXT || close(file)) return 2;
            texts[given - 1].start = octets[given - 1], texts[given - 1].length = got;
        }
    }
    pthread_t thread;
    pthread_attr_t own;
    void *result;
    if (pthread_attr_init(&own) || pthread_attr_setstack(&own, stack, STACK) || pthread_create(&thread, &own, run, words[1])) return 2;
    if (pthread_join(thread, &result)) return 2;
    uint32_t status = (uintptr_t)result;
    size_t unused = 0;
    while (!memcmp(stack + unused, zeros, PAGE)) unused += PAGE;
    if (STACK - unused > MOST_STACK) wrong("it takes too much stack", STACK - unused);
    if (kept) wrong("it holds memory", kept);
    for (int at = 0; at < 2; at++) {
        if (status && status != LAKHDZEVA_WRITE && lengths[at]) wrong("a length after a refusal", lengths[at]);
        size_t answer = status ? 0 : lengths[at];
        if (memcmp(places[at] + answer, zeros, SEEN)) wrong("octets are not as they were, behind", answer);
        int file = outputs[at] && !status ? open(outputs[at], O_WRONLY | O_TRUNC) : -1;
        if (file >= 0 && write(file, places[at], lengths[at]) != (ssize_t)lengths[at]) return 2;
    }
    if (!status) return 0;
    dprintf(2, "jose: %u %s\n", status, lakhdzeva_name(status));
    return 1;
}
