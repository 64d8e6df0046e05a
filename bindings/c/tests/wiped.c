/* Looks for secrets in the memory of the process, after each function of lakhdzeva.h: after answers, refusals, and with each allocation refused in
   turn. With the word `once` no allocation is refused. It is linked with the archive and with -Wl,--wrap=malloc.

   The secrets are the octets of keys and passwords, their base64url texts, a plaintext, and random octets that were drawn, which also are the
   content encryption keys. They are in constants, which are not writable. No 12 octets of one of them, which follow each other, may be in
   writable memory, except where an answer is. Each call runs on a stack of its own. */
#define _GNU_SOURCE
#include "lakhdzeva.h"

#include <fcntl.h>
#include <pthread.h>
#include <stdbool.h>
#include <stdio.h>
#include <stdlib.h>
#include <string.h>
#include <sys/random.h>
#include <unistd.h>

enum { RUN = 12, ROOM = 1 << 14, STACK = 1 << 18, ABOVE = 1 << 13, PAINT = 0x5a, MOST_SECRETS = 16, DRAWN = 1 << 12 };
static int passed, failed;

static void check(const char *what, const char *more, bool holds) {
    if (holds) passed++;
    else failed++;
    if (!holds) printf("FAILED: %s: %s\n", what, more);
}

/* ---- Secrets */

#define HMAC "AyM1SysPpbyDfgZld3umj1qzKObwVMkoqQ-EstJQLr_T-1qS0gZH75aKtMN3Yj0iPS4hcgUuTwjAzZr1Z9CAow"
#define WRAP "GawgguFyGrWKav7AX4VKUg"
#define DIRECT "XctOhJAkA-pD9Lh7ZgW_2A"
#define WORD "Y29ycmVjdCBob3JzZSBiYXR0ZXJ5IHN0YXBsZQ"
#define KEY(k, alg) "{\"alg\":\"" alg "\",\"k\":\"" k "\",\"kty\":\"oct\"}"
#define SIGNING KEY(HMAC, "HS256")
/* A key between members that nest 120 levels deep, which take more of the stack than is wiped. */
#define FIVE(text) text text text text text
#define DEEP FIVE(FIVE("[[[[")) FIVE("[[[[") FIVE(FIVE("]]]]")) FIVE("]]]]")
#define DEEP_SIGNING "{\"alg\":\"HS256\",\"first\":" DEEP ",\"k\":\"" HMAC "\",\"kty\":\"oct\",\"last\":" DEEP "}"
static const char PLAINTEXT[] = "Live long and prosper, and tell nobody of this text.";

/* The octets with their bits turned over, so that the secrets are not found here. */
static uint8_t turned[MOST_SECRETS][DRAWN];
static size_t lengths[MOST_SECRETS], secrets;
/* The places in the secrets, and for each two octets the first place that begins with them, and the next one for each. 0 is none. */
static struct {
    size_t secret, from, next;
} places[1 << 13];
static size_t first_place[1 << 16], count_of_places;

static void add(size_t at, uint8_t octet) {
    turned[secrets][at] = (uint8_t)~octet;
    lengths[secrets] = at + 1;
}

static void end_secret(void) {
    for (size_t at = 0; at + RUN <= lengths[secrets]; at++) {
        size_t *begins = &first_place[(uint8_t)~turned[secrets][at] | (uint8_t)~turned[secrets][at + 1] << 8];
        places[++count_of_places].secret = secrets;
        places[count_of_places].from = at;
        places[count_of_places].next = *begins;
        *begins = count_of_places;
    }
    secrets++;
}

static void add_text(const char *text) {
    for (size_t at = 0; text[at]; at++) add(at, (uint8_t)text[at]);
    end_secret();
}

/* A base64url text, and its octets. */
static void add_key(const char *text) {
    static const char letters[] = "ABCDEFGHIJKLMNOPQRSTUVWXYZabcdefghijklmnopqrstuvwxyz0123456789-_";
    add_text(text);
    unsigned bits = 0;
    for (size_t at = 0; text[at]; at++) {
        bits = bits << 6 | (unsigned)(strchr(letters, text[at]) - letters);
        if (at % 4) add(at / 4 * 3 + at % 4 - 1, (uint8_t)(bits >> (6 - 2 * (at % 4))));
    }
    end_secret();
}

/* The random octets of the system. */
static uint8_t drawn(size_t at) {
    return (uint8_t)((at * at * 7 + at * 181 + 97) >> 2 | 1);
}

static size_t fails_draw;

ssize_t getrandom(void *octets, size_t length, unsigned flags) {
    (void)flags;
    if (fails_draw) length = length / 2;
    for (size_t at = 0; at < length; at++) ((uint8_t *)octets)[at] = drawn(at);
    if (fails_draw && fails_draw++ > 1) return 0;
    return (ssize_t)length;
}

/* ---- Memory */

static size_t refused, asked;
static bool refuses = true;
void *__real_malloc(size_t size);
void *__wrap_malloc(size_t size);

void *__wrap_malloc(size_t size) {
    return ++asked == refused ? NULL : __real_malloc(size);
}

static char place[ROOM], other[ROOM];
static uint8_t stack[STACK] __attribute__((aligned(4096)));
static char maps[1 << 16];

/* The secret that has 12 octets here, or none. */
static int secret_at(const volatile uint8_t *octets) {
    for (size_t one = first_place[octets[0] | octets[1] << 8]; one; one = places[one].next) {
        size_t same = 0;
        while (same < RUN && (octets[same] ^ turned[places[one].secret][places[one].from + same]) == 0xff) same++;
        if (same == RUN) return (int)places[one].secret;
    }
    return -1;
}

static bool within(const volatile uint8_t *octets, const void *start, size_t length) {
    return octets >= (const uint8_t *)start && octets < (const uint8_t *)start + length;
}

/* Looks for secrets in all that is writable. */
static void look(const char *what, const char *how) {
    int file = open("/proc/self/maps", O_RDONLY);
    ssize_t length = 0;
    for (ssize_t got = 1; got > 0 && length < (ssize_t)sizeof maps - 1; length += got) got = read(file, maps + length, sizeof maps - 1 - (size_t)length);
    close(file);
    maps[length] = '\0';
    char where[120] = "";
    for (const char *line = maps; line && *line; line = strchr(line, '\n') ? strchr(line, '\n') + 1 : NULL) {
        unsigned long start, end;
        char mode[5];
        if (sscanf(line, "%lx-%lx %4s", &start, &end, mode) != 3 || mode[0] != 'r' || mode[1] != 'w') continue;
        const volatile uint8_t *first = (const volatile uint8_t *)start;
        for (size_t at = 0; at + RUN <= end - start; at++) {
            int secret = secret_at(first + at);
            if (secret < 0 || within(first + at, place, ROOM) || within(first + at, other, ROOM)) continue;
            bool is_on_stack = within(first + at, stack, STACK);
            snprintf(where, sizeof where, "%s: secret %d %s, %zu octets below the end", how, secret, is_on_stack ? "on the stack" : "in memory",
                is_on_stack ? (size_t)(stack + STACK - (first + at)) : 0);
            at += RUN;
        }
    }
    check(what, where, !*where);
}

/* ---- Calls */

typedef enum lakhdzeva_status call(void);
#define TEXT(text) (text), sizeof(text) - 1
static char object[ROOM], apart[ROOM], content[ROOM], sealed[6][ROOM];
static size_t length, beside, object_length, apart_length, content_length, sealed_length[6];
#define PLACE place, ROOM, &length

static const struct {
    const char *keys, *template_text;
} RECIPIENTS[] = {
    {KEY(WRAP, "A128KW"), "{}"}, {KEY(WRAP, "A128GCMKW"), "{\"protected\":{\"enc\":\"A256GCM\"}}"}, {KEY(DIRECT, "A128GCM"), "{}"},
    {KEY(HMAC, "A256CBC-HS512"), "{}"}, {KEY(WORD, "PBES2-HS512+A256KW"), "{\"protected\":{\"p2c\":1000}}"},
    {"{\"keys\":[" KEY(WRAP, "A128KW") "," KEY(WORD, "PBES2-HS256+A128KW") "]}", "{\"protected\":{\"p2c\":1000,\"enc\":\"A128CBC-HS256\"}}"},
};
static size_t recipient;
#define RECIPIENT RECIPIENTS[recipient].keys, strlen(RECIPIENTS[recipient].keys)
#define TEMPLATE RECIPIENTS[recipient].template_text, strlen(RECIPIENTS[recipient].template_text)

static enum lakhdzeva_status generate(void) { return lakhdzeva_generate(TEXT("{\"alg\":\"HS512\"}"), PLACE); }
static enum lakhdzeva_status generate_long(void) { return lakhdzeva_generate(TEXT("{\"bytes\":4096}"), PLACE); }
static enum lakhdzeva_status generate_badly(void) { return lakhdzeva_generate(TEXT("{\"alg\":7}"), PLACE); }
static enum lakhdzeva_status thumbprint(void) { return lakhdzeva_thumbprints(TEXT(SIGNING), 256, PLACE); }
static enum lakhdzeva_status thumbprint_small(void) { return lakhdzeva_thumbprints(TEXT(SIGNING), 512, place, 1, &length); }
static enum lakhdzeva_status judge(void) { return lakhdzeva_judge_keys(RECIPIENT, PLACE); }
static enum lakhdzeva_status judge_small(void) { return lakhdzeva_judge_keys(RECIPIENT, place, 0, &length); }
static enum lakhdzeva_status sign(void) { return lakhdzeva_sign(TEXT(SIGNING), NULL, 0, LAKHDZEVA_COMPACT, TEXT("payload"), PLACE); }
static enum lakhdzeva_status sign_badly(void) { return lakhdzeva_sign(TEXT(SIGNING), TEXT("{\"header\":{}}"), 8, TEXT("payload"), PLACE); }
static enum lakhdzeva_status sign_refused(void) { return lakhdzeva_sign(TEXT(SIGNING), TEXT("{\"protected\":{\"alg\":\"HS384\"}}"), 0, TEXT("x"), PLACE); }
static enum lakhdzeva_status verify(void) { return lakhdzeva_verify(TEXT(SIGNING), object, object_length, 0, PLACE); }
static enum lakhdzeva_status sign_deep(void) { return lakhdzeva_sign(TEXT(DEEP_SIGNING), NULL, 0, LAKHDZEVA_COMPACT, TEXT("payload"), PLACE); }
static enum lakhdzeva_status verify_deep(void) { return lakhdzeva_verify(TEXT(DEEP_SIGNING), object, object_length, 0, PLACE); }
static enum lakhdzeva_status verify_other(void) { return lakhdzeva_verify(TEXT(SIGNING), TEXT("eyJhbGciOiJIUzI1NiJ9.aGk.AAAA"), 0, PLACE); }
static enum lakhdzeva_status verify_apart(void) { return lakhdzeva_verify_detached(TEXT(SIGNING), apart, apart_length, 0, TEXT("payload")); }
static enum lakhdzeva_status verify_apart_other(void) { return lakhdzeva_verify_detached(TEXT(SIGNING), apart, apart_length, 0, TEXT("other")); }
static enum lakhdzeva_status verify_signer(void) { return lakhdzeva_verify_signer(TEXT(SIGNING), object, object_length, PLACE, &beside); }
static enum lakhdzeva_status verify_signer_other(void) {
    return lakhdzeva_verify_signer(TEXT(SIGNING), TEXT("eyJhbGciOiJIUzI1NiJ9.aGk.AAAA"), PLACE, &beside);
}
static enum lakhdzeva_status verify_all(void) { return lakhdzeva_verify_all(TEXT(SIGNING), 1, object, object_length, PLACE); }
static enum lakhdzeva_status verify_two(void) { return lakhdzeva_verify_all(TEXT(SIGNING), 2, object, object_length, PLACE); }
static enum lakhdzeva_status verify_all_apart(void) { return lakhdzeva_verify_all_detached(TEXT(SIGNING), 1, apart, apart_length, TEXT("payload")); }
static enum lakhdzeva_status encrypt_it(void) {
    return lakhdzeva_encrypt(RECIPIENT, TEMPLATE, 0, TEXT(PLAINTEXT), PLACE, NULL, 0, NULL);
}
static enum lakhdzeva_status encrypt_small(void) { return lakhdzeva_encrypt(RECIPIENT, TEMPLATE, 0, TEXT(PLAINTEXT), place, 9, &length, NULL, 0, NULL); }
static enum lakhdzeva_status encrypt_badly(void) { return lakhdzeva_encrypt(RECIPIENT, TEMPLATE, 8, TEXT(PLAINTEXT), PLACE, NULL, 0, NULL); }
static enum lakhdzeva_status encrypt_apart(void) {
    return lakhdzeva_encrypt(RECIPIENT, TEMPLATE, LAKHDZEVA_DETACH, TEXT(PLAINTEXT), PLACE, other, ROOM, &beside);
}
static enum lakhdzeva_status decrypt(void) {
    return lakhdzeva_decrypt(RECIPIENT, sealed[recipient], sealed_length[recipient], NULL, 0, 9000, PLACE);
}
static enum lakhdzeva_status decrypt_small(void) {
    return lakhdzeva_decrypt(RECIPIENT, sealed[recipient], sealed_length[recipient], NULL, 0, 9000, place, 9, &length);
}
static enum lakhdzeva_status decrypt_apart(void) {
    return lakhdzeva_decrypt(TEXT(KEY(WRAP, "A128KW")), apart, apart_length, content, content_length, 0, PLACE);
}
static enum lakhdzeva_status format_signed(void) { return lakhdzeva_format_signed(object, object_length, NULL, 0, 0, PLACE, NULL, 0, NULL); }
static enum lakhdzeva_status format_encrypted(void) {
    return lakhdzeva_format_encrypted(sealed[0], sealed_length[0], NULL, 0, LAKHDZEVA_DETACH, PLACE, other, ROOM, &beside);
}
static enum lakhdzeva_status no_call(void) { return LAKHDZEVA_OK; }

static enum lakhdzeva_status result;

/* Makes the call far below the end of the stack, so that what ends the thread overwrites nothing. */
static void *run(void *made) {
    volatile uint8_t above[ABOVE];
    above[0] = above[ABOVE - 1] = 0;
    result = (*(call **)made)();
    return NULL;
}

static enum lakhdzeva_status called(call *made) {
    pthread_t thread;
    pthread_attr_t own;
    memset(stack, PAINT, STACK);
    memset(place, 0, ROOM);
    memset(other, 0, ROOM);
    asked = 0;
    if (pthread_attr_init(&own) || pthread_attr_setstack(&own, stack, STACK) || pthread_create(&thread, &own, run, &made)) exit(2);
    if (pthread_join(thread, NULL) || pthread_attr_destroy(&own)) exit(2);
    return result;
}

/* Whether the lowest octets of the stack that the call touched were wiped, so that it used none below them. The lowest of all are the return
   address of memset. */
static bool is_wiped_deep(void) {
    size_t low = 0, zeros = 0;
    while (low < STACK && stack[low] == PAINT) low++;
    low += 128;
    while (low + zeros < STACK && !stack[low + zeros]) zeros++;
    return zeros >= 512;
}

static void try_call(const char *what, call *made, enum lakhdzeva_status wanted, bool has_secrets) {
    char how[40];
    enum lakhdzeva_status status = called(made);
    snprintf(how, sizeof how, "%u %s", (unsigned)status, lakhdzeva_name(status));
    check(what, how, status == wanted);
    look(what, how);
    if (has_secrets && wanted != LAKHDZEVA_USAGE) check(what, "it uses more of the stack than is wiped", is_wiped_deep());
    size_t all = asked;
    for (refused = 1; refuses && refused <= all; refused++) {
        status = called(made);
        snprintf(how, sizeof how, "without allocation %zu", refused);
        look(what, how);
        check(what, how, status == LAKHDZEVA_MEMORY || status == wanted);
    }
    refused = 0;
}

int main(int count, char **words) {
    refuses = count < 2 || strcmp(words[1], "once");
    static const struct {
        const char *what;
        call *made;
        enum lakhdzeva_status wanted;
    } calls[] = {
        {"generate", generate, LAKHDZEVA_OK}, {"generate a long key", generate_long, LAKHDZEVA_OK}, {"generate badly", generate_badly, LAKHDZEVA_KEY},
        {"thumbprints", thumbprint, LAKHDZEVA_OK}, {"thumbprints in a small place", thumbprint_small, LAKHDZEVA_WRITE}, {"sign", sign, LAKHDZEVA_OK},
        {"sign with a wrong flag", sign_badly, LAKHDZEVA_USAGE}, {"sign by another algorithm", sign_refused, LAKHDZEVA_KEY_DOES_NOT_FIT},
        {"verify", verify, LAKHDZEVA_OK}, {"verify another object", verify_other, LAKHDZEVA_NOT_OPENED}, {"verify_detached", verify_apart, LAKHDZEVA_OK},
        {"verify_detached with another payload", verify_apart_other, LAKHDZEVA_NOT_OPENED}, {"verify_signer", verify_signer, LAKHDZEVA_OK}, {"verify_signer of another object", verify_signer_other, LAKHDZEVA_NOT_OPENED},
        {"verify_all", verify_all, LAKHDZEVA_OK},
        {"verify_all with two signers", verify_two, LAKHDZEVA_KEY}, {"verify_all_detached", verify_all_apart, LAKHDZEVA_OK},
    };
    static const struct {
        const char *what;
        call *made;
        enum lakhdzeva_status wanted;
    } each[] = {
        {"judge_keys", judge, LAKHDZEVA_OK}, {"judge_keys into no place", judge_small, LAKHDZEVA_WRITE}, {"encrypt", encrypt_it, LAKHDZEVA_OK}, {"encrypt detached", encrypt_apart, LAKHDZEVA_OK}, {"encrypt into a small place", encrypt_small, LAKHDZEVA_WRITE},
        {"encrypt with a wrong flag", encrypt_badly, LAKHDZEVA_USAGE}, {"decrypt", decrypt, LAKHDZEVA_OK},
        {"decrypt into a small place", decrypt_small, LAKHDZEVA_WRITE},
    };
    add_key(HMAC);
    add_key(WRAP);
    add_key(DIRECT);
    add_key(WORD);
    add_text(PLAINTEXT);
    for (size_t at = 0; at < DRAWN; at++) add(at, drawn(at));
    end_secret();
    called(no_call);
    look("before the calls", "no call");

    if (called(sign)) return 2;
    memcpy(object, place, object_length = length);
    for (recipient = 0; recipient < 6; recipient++) {
        if (called(encrypt_it)) return 2;
        memcpy(sealed[recipient], place, sealed_length[recipient] = length);
    }
    if (lakhdzeva_format_signed(object, object_length, NULL, 0, LAKHDZEVA_DETACH, apart, ROOM, &apart_length, content, ROOM, &content_length)) return 2;
    for (size_t at = 0; at < sizeof calls / sizeof *calls; at++) try_call(calls[at].what, calls[at].made, calls[at].wanted, true);
    try_call("sign with a key that nests", sign_deep, LAKHDZEVA_OK, false);
    try_call("verify with a key that nests", verify_deep, LAKHDZEVA_OK, false);
    for (recipient = 0; recipient < 6; recipient++)
        for (size_t at = 0; at < sizeof each / sizeof *each; at++) try_call(each[at].what, each[at].made, each[at].wanted, true);
    recipient = 0;
    if (lakhdzeva_format_encrypted(sealed[0], sealed_length[0], NULL, 0, LAKHDZEVA_DETACH, apart, ROOM, &apart_length, content, ROOM, &content_length)) return 2;
    try_call("decrypt a detached ciphertext", decrypt_apart, LAKHDZEVA_OK, true);
    try_call("format_signed", format_signed, LAKHDZEVA_OK, false);
    try_call("format_encrypted", format_encrypted, LAKHDZEVA_OK, false);
    fails_draw = 1;
    try_call("generate with a draw that fails", generate, LAKHDZEVA_RANDOM, true);
    fails_draw = 1;
    try_call("encrypt with a draw that fails", encrypt_it, LAKHDZEVA_RANDOM, true);
    printf("%d passed, %d failed\n", passed, failed);
    return failed != 0;
}
