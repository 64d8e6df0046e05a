/* The functions of lakhdzeva.h. They test the arguments, draw random octets of the system, call the proved functions, which test no pointer, and
   wipe the memory that these used. scripts/lib/library.bash compiles this file into the library, in which the proved functions are local. */
#include "lakhdzeva.h"

#include <errno.h>
#include <stdbool.h>
#include <stdlib.h>
#include <string.h>
#include <sys/random.h>
#include <sys/types.h>

/* ---- The proved functions, whose contracts are in crates/lakhdzeva/src/lib.rt. A text or a place without octets has a pointer, too. */

uint32_t lakhdzeva_core_generate(const uint8_t *template_text, size_t template_length, const uint8_t *random, size_t random_length, uint8_t *key,
    size_t room, size_t *length);
uint32_t lakhdzeva_core_thumbprints(const uint8_t *keys, size_t keys_length, uint32_t bits, uint8_t *lines, size_t room, size_t *length);
uint32_t lakhdzeva_core_judge_keys(const uint8_t *keys, size_t keys_length, uint8_t *uses, size_t room, size_t *length);
uint32_t lakhdzeva_core_sign(const uint8_t *keys, size_t keys_length, const uint8_t *template_text, size_t template_length, bool compact, bool detach,
    const uint8_t *payload, size_t payload_length, uint8_t *object, size_t room, size_t *length);
uint32_t lakhdzeva_core_verify(const uint8_t *keys, size_t keys_length, const uint8_t *object, size_t object_length, bool all, uint8_t *payload,
    size_t room, size_t *length);
uint32_t lakhdzeva_core_verify_detached(const uint8_t *keys, size_t keys_length, const uint8_t *object, size_t object_length, bool all,
    const uint8_t *payload, size_t payload_length);
uint32_t lakhdzeva_core_verify_signer(const uint8_t *keys, size_t keys_length, const uint8_t *object, size_t object_length, uint8_t *payload,
    size_t room, size_t *length, size_t *signer);
uint32_t lakhdzeva_core_verify_all(const uint8_t *keys, size_t keys_length, size_t signers, const uint8_t *object, size_t object_length,
    uint8_t *payload, size_t room, size_t *length);
uint32_t lakhdzeva_core_verify_all_detached(const uint8_t *keys, size_t keys_length, size_t signers, const uint8_t *object, size_t object_length,
    const uint8_t *payload, size_t payload_length);
uint32_t lakhdzeva_core_format_signed(const uint8_t *object, size_t object_length, bool given, const uint8_t *payload, size_t payload_length,
    bool compact, bool detach, uint8_t *text, size_t text_room, size_t *text_length, uint8_t *content, size_t content_room, size_t *content_length);
uint32_t lakhdzeva_core_encrypt(const uint8_t *keys, size_t keys_length, const uint8_t *template_text, size_t template_length, bool compact,
    bool detach, const uint8_t *random, size_t random_length, const uint8_t *plaintext, size_t plaintext_length, uint8_t *object, size_t object_room,
    size_t *object_length, uint8_t *ciphertext, size_t ciphertext_room, size_t *ciphertext_length);
uint32_t lakhdzeva_core_decrypt(const uint8_t *keys, size_t keys_length, const uint8_t *object, size_t object_length, bool given,
    const uint8_t *ciphertext, size_t ciphertext_length, uint64_t most_iterations, uint8_t *plaintext, size_t room, size_t *length);
uint32_t lakhdzeva_core_format_encrypted(const uint8_t *object, size_t object_length, bool given, const uint8_t *ciphertext,
    size_t ciphertext_length, bool compact, bool detach, uint8_t *text, size_t text_room, size_t *text_length, uint8_t *content,
    size_t content_room, size_t *content_length);

/* ---- Arguments */

/* A text or a place: where it begins, and how many octets it has. */
struct part {
    const void *start;
    size_t length;
};

/* Whether each part has a pointer and an allowed length, and the first `written` of them overlap no other part. */
static bool are_sound(const struct part *parts, size_t count, size_t written) {
    for (size_t i = 0; i < count; i++)
        if (parts[i].length > SIZE_MAX / 2 || (!parts[i].start && parts[i].length)) return false;
    for (size_t i = 0; i < written; i++)
        for (size_t k = i + 1; k < count; k++) {
            uintptr_t one = (uintptr_t)parts[i].start, other = (uintptr_t)parts[k].start;
            if (parts[i].length && parts[k].length && one < other + parts[k].length && other < one + parts[i].length) return false;
        }
    return true;
}

#define ARE_SOUND(written, ...) \
    are_sound((const struct part[]){__VA_ARGS__}, sizeof((const struct part[]){__VA_ARGS__}) / sizeof(struct part), written)

/* Whether the flags are among these. */
static bool are_among(unsigned flags, unsigned known) {
    return !(flags & ~known);
}

enum { FORMS = LAKHDZEVA_COMPACT | LAKHDZEVA_DETACH };

/* The two arguments of the proved functions for a text, for a template and for a place. */
static uint8_t nothing;
#define TEXT(name) name ? (const uint8_t *)name : &nothing, name##_length
#define TEMPLATE template_text ? (const uint8_t *)template_text : (const uint8_t *)"{}", template_text ? template_length : 2
#define PLACE(name) name ? (uint8_t *)name : &nothing
#define FORM(flags) (flags & LAKHDZEVA_COMPACT) != 0, (flags & LAKHDZEVA_DETACH) != 0

/* Draws random octets of the system. A draw that was interrupted is made again, and one that gives nothing has failed. Returns how many
   there are: none, if they are not all there. The proved function then refuses with Random, or for an earlier cause. */
static size_t draw(uint8_t *octets, size_t length) {
    for (size_t drawn = 0; drawn < length;) {
        ssize_t got = getrandom(octets + drawn, length - drawn, 0);
        if (got > 0) drawn += (size_t)got;
        else if (got == 0 || errno != EINTR) return 0;
    }
    return length;
}

/* ---- What is left behind */

/* Fills the memory with zeros, which no compiler leaves out. */
static void wipe(void *start, size_t length) {
    memset(start, 0, length);
    __asm__ volatile("" : : "r"(start) : "memory");
}

/* The proved functions call these three in place of malloc, realloc and free. A block is wiped before it is given back. */
void *lakhdzeva_wiped_malloc(size_t size);
void *lakhdzeva_wiped_realloc(void *old, size_t size);
void lakhdzeva_wiped_free(void *old);

/* In front of each block: where the memory of malloc begins, and the size of the block. So no allocator is asked for the size: malloc_usable_size
   of another allocator than that of the block crashes, or gives any number. */
struct front {
    void *start;
    size_t size;
};

enum { ALIGNMENT = 16, FRONT = (sizeof(struct front) + ALIGNMENT - 1) / ALIGNMENT * ALIGNMENT };

static struct front *front_of(void *block) {
    return (struct front *)((uint8_t *)block - FRONT);
}

/* The proved functions may count on blocks at multiples of 16. If malloc gives another address, it is asked for more, to move the block up. */
void *lakhdzeva_wiped_malloc(size_t size) {
    size_t up = 0;
    if (size > SIZE_MAX - FRONT - ALIGNMENT) return NULL;
    uint8_t *start = malloc(FRONT + size);
    if ((uintptr_t)start % ALIGNMENT) {
        free(start);
        start = malloc(FRONT + size + ALIGNMENT);
        up = ALIGNMENT - (uintptr_t)start % ALIGNMENT;
    }
    if (!start) return NULL;
    uint8_t *block = start + up + FRONT;
    *front_of(block) = (struct front){start, size};
    return block;
}

/* A block that is moved would leave its octets behind, and nobody can know whether realloc moves it. So it always moves here. */
void *lakhdzeva_wiped_realloc(void *old, size_t size) {
    void *new = lakhdzeva_wiped_malloc(size);
    if (!new || !old) return new;
    size_t kept = front_of(old)->size;
    memcpy(new, old, kept < size ? kept : size);
    lakhdzeva_wiped_free(old);
    return new;
}

void lakhdzeva_wiped_free(void *old) {
    if (!old) return;
    struct front *front = front_of(old);
    void *start = front->start;
    wipe(front, FRONT + front->size);
    free(start);
}

/* The octets of the stack that the proved functions use at most, unless the JSON nests deep: what lies below is no secret. Those that format
   objects have no secrets. bindings/c/tests/wiped.c measures them. */
enum {
    GENERATE = 34 << 10, THUMBPRINTS = 26 << 10, JUDGE_KEYS = 26 << 10, SIGN = 42 << 10, VERIFY = 42 << 10, VERIFY_DETACHED = 36 << 10, ENCRYPT = 66 << 10, DECRYPT = 32 << 10
};

/* Wipes so many octets of the stack below the caller, and returns the result. */
__attribute__((__noinline__)) static enum lakhdzeva_status wiped(uint32_t result, size_t stack) {
    uint8_t below[stack];
    wipe(below, stack);
    return result;
}

/* ---- Rooms */

/* The least octets of the text of a key: {"k":"AA","kty":"oct"}. One that signs has 32 octets or more, which are 43 characters. A bad member of
   a set can be {}, behind a comma. */
enum { LEAST_KEY = 22, LEAST_SIGNING_KEY = 63, LEAST_MEMBER = 3 };

/* The most keys that a text of this length can have, if each takes at least so many octets, up to the limit of a set. */
static size_t most_keys(size_t keys_length, size_t each) {
    size_t keys = keys_length / each + 1;
    return keys < 64 ? keys : 64;
}

/* The sum of these lengths, or SIZE_MAX if it is greater. */
static size_t sum(size_t a, size_t b) {
    return a > SIZE_MAX - b ? SIZE_MAX : a + b;
}

/* The length of a base64url text of so many octets, at most. */
static size_t base64(size_t length) {
    return sum(length, sum(length / 3, 2));
}

static size_t greater(size_t a, size_t b) {
    return a > b ? a : b;
}

size_t lakhdzeva_generate_room(size_t template_length) {
    return sum(template_length, 5632);
}

size_t lakhdzeva_thumbprints_room(size_t keys_length) {
    return 87 * most_keys(keys_length, LEAST_KEY);
}

size_t lakhdzeva_judge_keys_room(size_t keys_length) {
    return most_keys(keys_length, LEAST_MEMBER);
}

/* Each signature has the headers of the template. */
size_t lakhdzeva_sign_room(size_t keys_length, size_t template_length, size_t payload_length) {
    size_t keys = most_keys(keys_length, LEAST_SIGNING_KEY), each = sum(base64(sum(template_length, 32)), 192);
    return each > SIZE_MAX / 64 ? SIZE_MAX : sum(base64(payload_length), keys * each);
}

size_t lakhdzeva_verify_room(size_t object_length) {
    return object_length;
}

/* The object has the headers of the template once, and 256 octets or less for a recipient. */
size_t lakhdzeva_encrypt_room(size_t keys_length, size_t template_length, size_t plaintext_length) {
    size_t keys = most_keys(keys_length, LEAST_KEY), headers = base64(sum(template_length, 192));
    return sum(base64(sum(plaintext_length, 16)), sum(headers, (keys + 2) * 256));
}

size_t lakhdzeva_ciphertext_room(size_t plaintext_length) {
    return sum(plaintext_length, 16);
}

size_t lakhdzeva_decrypt_room(size_t object_length, size_t ciphertext_length) {
    return greater(object_length, ciphertext_length);
}

size_t lakhdzeva_format_room(size_t object_length, size_t content_length) {
    return sum(sum(object_length, base64(content_length)), 128);
}

size_t lakhdzeva_content_room(size_t object_length, size_t content_length) {
    return greater(object_length, content_length);
}

/* ---- Results */

const char *lakhdzeva_name(uint32_t status) {
    static const char *const names[] = {
        "Ok",     "Usage",       "Read",       "Write",         "Memory", "Random",     "Base64",   "Json", "Number", "Key", "Form", "Header",
        "Unsupported", "NoAlgorithm", "KeyDoesNotFit", "Limit",  "NotCompact", "NotOpened",
    };
    return status <= LAKHDZEVA_NOT_OPENED ? names[status] : "Unknown";
}

const char *lakhdzeva_version(void) {
    return LAKHDZEVA_VERSION;
}

/* ---- Functions */

typedef enum lakhdzeva_status status;

status lakhdzeva_generate_with_random(const void *template_text, size_t template_length, const void *random, size_t random_length, void *key,
    size_t room, size_t *length) {
    if (!ARE_SOUND(2, {key, room}, {length, sizeof *length}, {template_text, template_length}, {random, random_length})) return LAKHDZEVA_USAGE;
    return wiped(lakhdzeva_core_generate(TEMPLATE, TEXT(random), PLACE(key), room, length), GENERATE);
}

status lakhdzeva_generate(const void *template_text, size_t template_length, void *key, size_t room, size_t *length) {
    uint8_t random[4096];
    status status = LAKHDZEVA_RANDOM;
    /* An algorithm asks for at most 64 octets, and a template for at most 4,096. */
    for (size_t most = 64; most <= sizeof random && status == LAKHDZEVA_RANDOM; most *= 64) {
        status = lakhdzeva_generate_with_random(template_text, template_length, random, draw(random, most), key, room, length);
        wipe(random, most);
    }
    return status;
}

status lakhdzeva_thumbprints(const void *keys, size_t keys_length, unsigned bits, void *lines, size_t room, size_t *length) {
    if (!ARE_SOUND(2, {lines, room}, {length, sizeof *length}, {keys, keys_length})) return LAKHDZEVA_USAGE;
    return wiped(lakhdzeva_core_thumbprints(TEXT(keys), bits, PLACE(lines), room, length), THUMBPRINTS);
}

status lakhdzeva_judge_keys(const void *keys, size_t keys_length, void *uses, size_t room, size_t *length) {
    if (!ARE_SOUND(2, {uses, room}, {length, sizeof *length}, {keys, keys_length})) return LAKHDZEVA_USAGE;
    return wiped(lakhdzeva_core_judge_keys(TEXT(keys), PLACE(uses), room, length), JUDGE_KEYS);
}

status lakhdzeva_sign(const void *keys, size_t keys_length, const void *template_text, size_t template_length, unsigned flags, const void *payload,
    size_t payload_length, void *object, size_t room, size_t *length) {
    if (!ARE_SOUND(2, {object, room}, {length, sizeof *length}, {keys, keys_length}, {template_text, template_length}, {payload, payload_length})
        || !are_among(flags, FORMS))
        return LAKHDZEVA_USAGE;
    return wiped(lakhdzeva_core_sign(TEXT(keys), TEMPLATE, FORM(flags), TEXT(payload), PLACE(object), room, length), SIGN);
}

status lakhdzeva_verify(const void *keys, size_t keys_length, const void *object, size_t object_length, unsigned flags, void *payload, size_t room,
    size_t *length) {
    if (!ARE_SOUND(2, {payload, room}, {length, sizeof *length}, {keys, keys_length}, {object, object_length}) || !are_among(flags, LAKHDZEVA_ALL))
        return LAKHDZEVA_USAGE;
    return wiped(lakhdzeva_core_verify(TEXT(keys), TEXT(object), flags != 0, PLACE(payload), room, length), VERIFY);
}

status lakhdzeva_verify_detached(const void *keys, size_t keys_length, const void *object, size_t object_length, unsigned flags,
    const void *payload, size_t payload_length) {
    if (!ARE_SOUND(0, {keys, keys_length}, {object, object_length}, {payload, payload_length}) || !are_among(flags, LAKHDZEVA_ALL))
        return LAKHDZEVA_USAGE;
    return wiped(lakhdzeva_core_verify_detached(TEXT(keys), TEXT(object), flags != 0, TEXT(payload)), VERIFY_DETACHED);
}

status lakhdzeva_verify_signer(const void *keys, size_t keys_length, const void *object, size_t object_length, void *payload, size_t room,
    size_t *length, size_t *signer) {
    if (!ARE_SOUND(3, {payload, room}, {length, sizeof *length}, {signer, sizeof *signer}, {keys, keys_length}, {object, object_length}))
        return LAKHDZEVA_USAGE;
    return wiped(lakhdzeva_core_verify_signer(TEXT(keys), TEXT(object), PLACE(payload), room, length, signer), VERIFY);
}

status lakhdzeva_verify_all(const void *keys, size_t keys_length, size_t signers, const void *object, size_t object_length, void *payload,
    size_t room, size_t *length) {
    if (!ARE_SOUND(2, {payload, room}, {length, sizeof *length}, {keys, keys_length}, {object, object_length})) return LAKHDZEVA_USAGE;
    return wiped(lakhdzeva_core_verify_all(TEXT(keys), signers, TEXT(object), PLACE(payload), room, length), VERIFY);
}

status lakhdzeva_verify_all_detached(const void *keys, size_t keys_length, size_t signers, const void *object, size_t object_length,
    const void *payload, size_t payload_length) {
    if (!ARE_SOUND(0, {keys, keys_length}, {object, object_length}, {payload, payload_length})) return LAKHDZEVA_USAGE;
    return wiped(lakhdzeva_core_verify_all_detached(TEXT(keys), signers, TEXT(object), TEXT(payload)), VERIFY_DETACHED);
}

status lakhdzeva_encrypt_with_random(const void *keys, size_t keys_length, const void *template_text, size_t template_length, unsigned flags,
    const void *random, size_t random_length, const void *plaintext, size_t plaintext_length, void *object, size_t object_room,
    size_t *object_length, void *ciphertext, size_t ciphertext_room, size_t *ciphertext_length) {
    size_t unwanted = 0, *beside = ciphertext_length ? ciphertext_length : &unwanted;
    if (!ARE_SOUND(4, {object, object_room}, {object_length, sizeof *object_length}, {ciphertext, ciphertext_room}, {beside, sizeof *beside},
            {keys, keys_length}, {template_text, template_length}, {random, random_length}, {plaintext, plaintext_length})
        || !are_among(flags, FORMS) || (flags & LAKHDZEVA_DETACH && !ciphertext_length))
        return LAKHDZEVA_USAGE;
    return wiped(lakhdzeva_core_encrypt(TEXT(keys), TEMPLATE, FORM(flags), TEXT(random), TEXT(plaintext), PLACE(object), object_room, object_length,
        PLACE(ciphertext), ciphertext_room, beside), ENCRYPT);
}

status lakhdzeva_encrypt(const void *keys, size_t keys_length, const void *template_text, size_t template_length, unsigned flags,
    const void *plaintext, size_t plaintext_length, void *object, size_t object_room, size_t *object_length, void *ciphertext, size_t ciphertext_room,
    size_t *ciphertext_length) {
    /* A content encryption key has at most 64 octets, an initialization vector 16, and a recipient draws at most 16. */
    uint8_t random[80 + 16 * 64];
    size_t most = 80 + 16 * most_keys(keys_length, LEAST_KEY);
    status status = lakhdzeva_encrypt_with_random(keys, keys_length, template_text, template_length, flags, random, draw(random, most), plaintext,
        plaintext_length, object, object_room, object_length, ciphertext, ciphertext_room, ciphertext_length);
    wipe(random, most);
    return status;
}

status lakhdzeva_decrypt(const void *keys, size_t keys_length, const void *object, size_t object_length, const void *ciphertext,
    size_t ciphertext_length, uint64_t iterations, void *plaintext, size_t room, size_t *length) {
    if (!ARE_SOUND(2, {plaintext, room}, {length, sizeof *length}, {keys, keys_length}, {object, object_length}, {ciphertext, ciphertext_length}))
        return LAKHDZEVA_USAGE;
    return wiped(lakhdzeva_core_decrypt(TEXT(keys), TEXT(object), ciphertext != NULL, TEXT(ciphertext), iterations, PLACE(plaintext), room, length), DECRYPT);
}

/* The proved function writes the object in another form. */
static status format(uint32_t (*proved)(const uint8_t *, size_t, bool, const uint8_t *, size_t, bool, bool, uint8_t *, size_t, size_t *, uint8_t *, size_t, size_t *), const void *object, size_t object_length, const void *content,
    size_t content_length, unsigned flags, void *text, size_t text_room, size_t *text_length, void *detached, size_t detached_room,
    size_t *detached_length) {
    size_t unwanted = 0, *beside = detached_length ? detached_length : &unwanted;
    if (!ARE_SOUND(4, {text, text_room}, {text_length, sizeof *text_length}, {detached, detached_room}, {beside, sizeof *beside},
            {object, object_length}, {content, content_length})
        || !are_among(flags, FORMS) || (flags & LAKHDZEVA_DETACH && !detached_length))
        return LAKHDZEVA_USAGE;
    return proved(TEXT(object), content != NULL, TEXT(content), FORM(flags), PLACE(text), text_room, text_length, PLACE(detached), detached_room, beside);
}

status lakhdzeva_format_signed(const void *object, size_t object_length, const void *payload, size_t payload_length, unsigned flags, void *text,
    size_t text_room, size_t *text_length, void *detached, size_t detached_room, size_t *detached_length) {
    return format(lakhdzeva_core_format_signed, object, object_length, payload, payload_length, flags, text, text_room, text_length, detached,
        detached_room, detached_length);
}

status lakhdzeva_format_encrypted(const void *object, size_t object_length, const void *ciphertext, size_t ciphertext_length, unsigned flags,
    void *text, size_t text_room, size_t *text_length, void *detached, size_t detached_room, size_t *detached_length) {
    return format(lakhdzeva_core_format_encrypted, object, object_length, ciphertext, ciphertext_length, flags, text, text_room, text_length, detached,
        detached_room, detached_length);
}
