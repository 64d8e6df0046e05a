/* Calls each function of lakhdzeva.h: with the standards' examples, with what is refused, with arguments that are wrong, and from many threads
   that have as little stack as the header allows. It is compiled as C and as C++. */
#ifndef _GNU_SOURCE
#define _GNU_SOURCE
#endif
#include "lakhdzeva.h"

#include <limits.h>
#include <pthread.h>
#include <stdbool.h>
#include <stdio.h>
#include <stdlib.h>
#include <string.h>
#include <sys/mman.h>
#include <time.h>
#include <unistd.h>

static int passed, failed;

static void check(const char *what, bool holds) {
    if (holds) passed++;
    else failed++;
    if (!holds) printf("FAILED: %s\n", what);
}

/* RFC 7515 appendix A.1. */
static const char SIGNING[] =
    "{\"kty\":\"oct\",\"k\":\"AyM1SysPpbyDfgZld3umj1qzKObwVMkoqQ-EstJQLr_T-1qS0gZH75aKtMN3Yj0iPS4hcgUuTwjAzZr1Z9CAow\"}";
static const char SIGNED[] =
    "eyJ0eXAiOiJKV1QiLA0KICJhbGciOiJIUzI1NiJ9.eyJpc3MiOiJqb2UiLA0KICJleHAiOjEzMDA4MTkzODAsDQogImh0dHA6Ly9leGFtcGxlLmNvbS9pc19yb290Ijp0cnVlfQ"
    ".dBjftJeZ4CVP-mB92K27uhbUJU1p1r_wW1gFWFOEjXk";
static const char CLAIMS[] = "{\"iss\":\"joe\",\r\n \"exp\":1300819380,\r\n \"http://example.com/is_root\":true}";
/* RFC 7516 appendix A.3. Its random octets are the content encryption key and the initialization vector. */
static const char WRAPPING[] = "{\"kty\":\"oct\",\"k\":\"GawgguFyGrWKav7AX4VKUg\"}";
static const char ENCRYPTED[] =
    "eyJhbGciOiJBMTI4S1ciLCJlbmMiOiJBMTI4Q0JDLUhTMjU2In0.6KB707dM9YTIgHtLvtgWQ8mKwboJW3of9locizkDTHzBC2IlrT1oOQ.AxY8DCtDaGlsbGljb3RoZQ"
    ".KDlTtXchhZTGufMYmOYGS4HffxPSUrfmqCHXaI9wOGY.U0m_YmjN04DJvceFICbCVQ";
static const char LINE[] = "Live long and prosper.";
static const unsigned char RANDOM[] = {
    0x04, 0xd3, 0x1f, 0xc5, 0x54, 0x9d, 0xfc, 0xfe, 0x0b, 0x64, 0x9d, 0xfa, 0x3f, 0xaa, 0x6a, 0xce, 0x6b, 0x7c, 0xd4, 0x2d, 0x6f, 0x6b, 0x09, 0xdb,
    0xc8, 0xb1, 0x00, 0xf0, 0x8f, 0x9c, 0x2c, 0xcf, 0x03, 0x16, 0x3c, 0x0c, 0x2b, 0x43, 0x68, 0x69, 0x6c, 0x6c, 0x69, 0x63, 0x6f, 0x74, 0x68, 0x65};
/* Any text is a password for an object that is encrypted to one. */
static const char PASSWORD[] = "{\"k\":\"AA\",\"kty\":\"oct\"}";
/* A key that may encrypt, a bad one, keys that may sign and verify, one that may decrypt, one that is too short for its algorithm, and a password. */
#define K32 "AAAAAAAAAAAAAAAAAAAAAAAAAAAAAAAAAAAAAAAAAAA"
static const char JUDGED[] =
    "{\"keys\":[{\"kty\":\"oct\",\"alg\":\"A128KW\",\"key_ops\":[\"wrapKey\"],\"k\":\"GawgguFyGrWKav7AX4VKUg\"},{},"
    "{\"kty\":\"oct\",\"alg\":\"HS256\",\"key_ops\":[\"sign\"],\"k\":\"" K32 "\"},{\"kty\":\"oct\",\"alg\":\"HS256\",\"key_ops\":[\"verify\"],\"k\":\"" K32 "\"},"
    "{\"kty\":\"oct\",\"alg\":\"A128KW\",\"key_ops\":[\"unwrapKey\"],\"k\":\"GawgguFyGrWKav7AX4VKUg\"},{\"kty\":\"oct\",\"alg\":\"HS256\",\"k\":\"AA\"},"
    "{\"kty\":\"oct\",\"use\":\"enc\",\"k\":\"AA\"}]}";
static const char HEADER[] = "{\"protected\":{\"alg\":\"A128KW\",\"enc\":\"A128CBC-HS256\"}}";

#define TEXT(text) (text), sizeof(text) - 1

enum { ROOM = 8192, UNSET = 4711 };
static char place[ROOM], beside[ROOM];
static size_t length, other;

/* The result is a refusal with this number, the length is 0 and the place is as it was. */
static void refuses(const char *what, uint32_t status, uint32_t wanted) {
    bool same = true;
    for (size_t at = 0; at < ROOM; at++) same = same && place[at] == 'x';
    if (status != wanted) printf("%s: %u %s\n", what, status, lakhdzeva_name(status));
    check(what, status == wanted && length == 0 && same);
}

static void fresh(void) {
    memset(place, 'x', ROOM);
    memset(beside, 'x', ROOM);
    length = other = UNSET;
}

/* The result is 0, the place begins with this text, and its rest is as it was. */
static void gives(const char *what, uint32_t status, const char *text, size_t text_length) {
    bool same = status == 0 && length == text_length && !memcmp(place, text, text_length);
    for (size_t at = text_length; at < ROOM; at++) same = same && place[at] == 'x';
    if (status) printf("%s: %u %s\n", what, status, lakhdzeva_name(status));
    check(what, same);
}

static void try_standards(void) {
    fresh();
    gives("RFC 7515 A.1 verifies", lakhdzeva_verify(TEXT(SIGNING), TEXT(SIGNED), 0, place, ROOM, &length), TEXT(CLAIMS));
    fresh();
    gives("and with each of the keys", lakhdzeva_verify(TEXT(SIGNING), TEXT(SIGNED), LAKHDZEVA_ALL, place, ROOM, &length), TEXT(CLAIMS));
    fresh();
    gives("RFC 7516 A.3 decrypts", lakhdzeva_decrypt(TEXT(WRAPPING), TEXT(ENCRYPTED), NULL, 0, 0, place, ROOM, &length), TEXT(LINE));
    fresh();
    gives("and its random octets give the same object", lakhdzeva_encrypt_with_random(TEXT(WRAPPING), TEXT(HEADER), LAKHDZEVA_COMPACT, RANDOM,
        sizeof RANDOM, TEXT(LINE), place, ROOM, &length, NULL, 0, NULL), TEXT(ENCRYPTED));
    /* Python: base64.urlsafe_b64encode(hashlib.sha256(b'{"k":"GawgguFyGrWKav7AX4VKUg","kty":"oct"}').digest()) */
    fresh();
    gives("a thumbprint by SHA-256", lakhdzeva_thumbprints(TEXT(WRAPPING), 256, place, ROOM, &length),
        TEXT("k1JnWRfC-5zzmL72vXIuBgTLfVROXBakS4OmGcrMCoc"));
    fresh();
    gives("what RFC 7515's key may do", lakhdzeva_judge_keys(TEXT(SIGNING), place, ROOM, &length), TEXT("\x1f"));
    fresh();
    gives("what members of a set may do", lakhdzeva_judge_keys(TEXT(JUDGED), place, ROOM, &length), TEXT("\x14\0\x11\x12\x18\x10\x1c"));
    fresh();
    gives("a key of handed in octets", lakhdzeva_generate_with_random(TEXT("{\"alg\":\"A128KW\",\"kid\":\"7\"}"), RANDOM, 16, place, ROOM, &length),
        TEXT("{\"alg\":\"A128KW\",\"k\":\"BNMfxVSd_P4LZJ36P6pqzg\",\"key_ops\":[\"wrapKey\",\"unwrapKey\"],\"kid\":\"7\",\"kty\":\"oct\"}"));
}

static void try_refusals(void) {
    static char changed[sizeof SIGNED];
    strcpy(changed, SIGNED);
    changed[60] ^= 1;
    fresh();
    refuses("17: a changed payload", lakhdzeva_verify(TEXT(SIGNING), TEXT(changed), 0, place, ROOM, &length), LAKHDZEVA_NOT_OPENED);
    fresh();
    refuses("16: unprotected members", lakhdzeva_sign(TEXT(SIGNING), TEXT("{\"header\":{\"kid\":\"7\"}}"), LAKHDZEVA_COMPACT, TEXT(LINE), place, ROOM, &length),
        LAKHDZEVA_NOT_COMPACT);
    fresh();
    refuses("15: too many octets", lakhdzeva_generate(TEXT("{\"bytes\":4097}"), place, ROOM, &length), LAKHDZEVA_LIMIT);
    fresh();
    refuses("14: a key that is too short", lakhdzeva_sign(TEXT(WRAPPING), TEXT("{\"protected\":{\"alg\":\"HS256\"}}"), 0, TEXT(LINE), place, ROOM, &length),
        LAKHDZEVA_KEY_DOES_NOT_FIT);
    fresh();
    refuses("13: no algorithm", lakhdzeva_sign(TEXT(WRAPPING), NULL, 0, 0, TEXT(LINE), place, ROOM, &length), LAKHDZEVA_NO_ALGORITHM);
    fresh();
    refuses("12: an unknown algorithm", lakhdzeva_sign(TEXT(SIGNING), TEXT("{\"protected\":{\"alg\":\"none\"}}"), 0, TEXT(LINE), place, ROOM, &length),
        LAKHDZEVA_UNSUPPORTED);
    fresh();
    refuses("11: a name in two headers", lakhdzeva_sign(TEXT(SIGNING), TEXT("{\"protected\":{\"a\":1},\"header\":{\"a\":1}}"), 0, TEXT(LINE), place, ROOM,
        &length), LAKHDZEVA_HEADER);
    fresh();
    refuses("10: two parts", lakhdzeva_verify(TEXT(SIGNING), TEXT("a.b"), 0, place, ROOM, &length), LAKHDZEVA_FORM);
    fresh();
    refuses("9: no good key to judge", lakhdzeva_judge_keys(TEXT("{\"keys\":[{}]}"), place, ROOM, &length), LAKHDZEVA_KEY);
    fresh();
    refuses("9: a key of another type", lakhdzeva_verify(TEXT("{\"kty\":\"EC\"}"), TEXT(SIGNED), 0, place, ROOM, &length), LAKHDZEVA_KEY);
    fresh();
    refuses("8: a fraction", lakhdzeva_generate(TEXT("{\"bytes\":1.5}"), place, ROOM, &length), LAKHDZEVA_NUMBER);
    fresh();
    refuses("7: no JSON", lakhdzeva_verify(TEXT("secret"), TEXT(SIGNED), 0, place, ROOM, &length), LAKHDZEVA_JSON);
    fresh();
    refuses("6: no base64url text", lakhdzeva_verify(TEXT(SIGNING), TEXT("e30.a+b.AAAA"), 0, place, ROOM, &length), LAKHDZEVA_BASE64);
    fresh();
    refuses("5: too few random octets", lakhdzeva_encrypt_with_random(TEXT(WRAPPING), TEXT(HEADER), 0, RANDOM, sizeof RANDOM - 1, TEXT(LINE), place, ROOM,
        &length, NULL, 0, NULL), LAKHDZEVA_RANDOM);
    fresh();
    refuses("1: another hash", lakhdzeva_thumbprints(TEXT(WRAPPING), 257, place, ROOM, &length), LAKHDZEVA_USAGE);
}

/* A wrong argument is 1 Usage, and nothing is written, not even a length. */
static void is_usage(const char *what, uint32_t status) {
    bool same = length == UNSET && other == UNSET;
    for (size_t at = 0; at < ROOM; at++) same = same && place[at] == 'x' && beside[at] == 'x';
    check(what, status == LAKHDZEVA_USAGE && same);
}

static void try_arguments(void) {
    fresh();
    is_usage("no length", lakhdzeva_verify(TEXT(SIGNING), TEXT(SIGNED), 0, place, ROOM, NULL));
    is_usage("keys without a pointer", lakhdzeva_verify(NULL, 7, TEXT(SIGNED), 0, place, ROOM, &length));
    is_usage("a place without a pointer", lakhdzeva_verify(TEXT(SIGNING), TEXT(SIGNED), 0, NULL, 7, &length));
    is_usage("an unknown flag", lakhdzeva_verify(TEXT(SIGNING), TEXT(SIGNED), 8, place, ROOM, &length));
    is_usage("a flag of another call", lakhdzeva_verify(TEXT(SIGNING), TEXT(SIGNED), LAKHDZEVA_COMPACT, place, ROOM, &length));
    is_usage("a length of 2^63", lakhdzeva_verify(SIGNING, SIZE_MAX / 2 + 1, TEXT(SIGNED), 0, place, ROOM, &length));
    is_usage("the object in the place", lakhdzeva_verify(TEXT(SIGNING), place + 1, 5, 0, place, 2, &length));
    is_usage("the place in the object", lakhdzeva_verify(TEXT(SIGNING), place, 100, 0, place + 99, 100, &length));
    is_usage("the length in the place", lakhdzeva_verify(TEXT(SIGNING), TEXT(SIGNED), 0, &length, sizeof length, &length));
    is_usage("both places are one", lakhdzeva_encrypt(TEXT(WRAPPING), NULL, 0, LAKHDZEVA_DETACH, TEXT(LINE), place, ROOM, &length, place, ROOM, &other));
    is_usage("both lengths are one", lakhdzeva_encrypt(TEXT(WRAPPING), NULL, 0, LAKHDZEVA_DETACH, TEXT(LINE), place, ROOM, &length, beside, ROOM, &length));
    is_usage("detached without a length", lakhdzeva_encrypt(TEXT(WRAPPING), NULL, 0, LAKHDZEVA_DETACH, TEXT(LINE), place, ROOM, &length, NULL, 0, NULL));
    is_usage("detached without a length, in another form", lakhdzeva_format_signed(TEXT(SIGNED), NULL, 0, LAKHDZEVA_DETACH, place, ROOM, &length, NULL, 0, NULL));
    is_usage("a payload without a pointer", lakhdzeva_verify_detached(TEXT(SIGNING), TEXT(SIGNED), 0, NULL, 1));
    is_usage("a flag for a detached payload", lakhdzeva_verify_detached(TEXT(SIGNING), TEXT(SIGNED), LAKHDZEVA_DETACH, NULL, 0));
    is_usage("random octets in the place", lakhdzeva_generate_with_random(TEXT("{\"alg\":\"A128KW\"}"), place, 16, place, ROOM, &length));
    /* Places that touch do not overlap. */
    memcpy(place, SIGNED, sizeof SIGNED - 1);
    check("places that touch", lakhdzeva_verify(TEXT(SIGNING), place, sizeof SIGNED - 1, 0, place + sizeof SIGNED - 1, 70, &length) == 0 && length == 70);
}

/* ---- each argument of each function */

/* What a call gets: its places, which come first, and its texts. */
struct lent {
    char *start;
    size_t length;
};

/* Where the length of each place goes, and the flags of the call. */
static size_t counts[2];
static size_t *to_count[2];
static unsigned asked;

#define LENT(at) lent[at].start, lent[at].length

static uint32_t generate(const struct lent *lent) { return lakhdzeva_generate(LENT(1), LENT(0), to_count[0]); }
static uint32_t generate_with_random(const struct lent *lent) { return lakhdzeva_generate_with_random(LENT(1), LENT(2), LENT(0), to_count[0]); }
static uint32_t thumbprints(const struct lent *lent) { return lakhdzeva_thumbprints(LENT(1), 256, LENT(0), to_count[0]); }
static uint32_t judge_keys(const struct lent *lent) { return lakhdzeva_judge_keys(LENT(1), LENT(0), to_count[0]); }
static uint32_t sign(const struct lent *lent) { return lakhdzeva_sign(LENT(1), LENT(2), asked, LENT(3), LENT(0), to_count[0]); }
static uint32_t verify(const struct lent *lent) { return lakhdzeva_verify(LENT(1), LENT(2), asked, LENT(0), to_count[0]); }
static uint32_t verify_detached(const struct lent *lent) { return lakhdzeva_verify_detached(LENT(0), LENT(1), asked, LENT(2)); }
static uint32_t verify_signer(const struct lent *lent) { return lakhdzeva_verify_signer(LENT(1), LENT(2), LENT(0), to_count[0], to_count[1]); }
static uint32_t verify_all(const struct lent *lent) { return lakhdzeva_verify_all(LENT(1), 1, LENT(2), LENT(0), to_count[0]); }
static uint32_t verify_all_detached(const struct lent *lent) { return lakhdzeva_verify_all_detached(LENT(0), 1, LENT(1), LENT(2)); }
static uint32_t decrypt(const struct lent *lent) { return lakhdzeva_decrypt(LENT(1), LENT(2), LENT(3), UINT64_MAX, LENT(0), to_count[0]); }
static uint32_t encrypt_by_system(const struct lent *lent) {
    return lakhdzeva_encrypt(LENT(2), LENT(3), asked, LENT(4), LENT(0), to_count[0], LENT(1), to_count[1]);
}
static uint32_t encrypt_with_random(const struct lent *lent) {
    return lakhdzeva_encrypt_with_random(LENT(2), LENT(3), asked, LENT(4), LENT(5), LENT(0), to_count[0], LENT(1), to_count[1]);
}
static uint32_t format_signed(const struct lent *lent) {
    return lakhdzeva_format_signed(LENT(2), LENT(3), asked, LENT(0), to_count[0], LENT(1), to_count[1]);
}
static uint32_t format_encrypted(const struct lent *lent) {
    return lakhdzeva_format_encrypted(LENT(2), LENT(3), asked, LENT(0), to_count[0], LENT(1), to_count[1]);
}

enum { FORMS = LAKHDZEVA_COMPACT | LAKHDZEVA_DETACH, NO_FLAGS = -1 };
static const struct {
    const char *name;
    uint32_t (*call)(const struct lent *lent);
    size_t places, all;
    int flags; /* the flags that it takes */
} CALLS[] = {
    {"generate", generate, 1, 2, NO_FLAGS}, {"generate_with_random", generate_with_random, 1, 3, NO_FLAGS},
    {"thumbprints", thumbprints, 1, 2, NO_FLAGS}, {"judge_keys", judge_keys, 1, 2, NO_FLAGS}, {"sign", sign, 1, 4, FORMS}, {"verify", verify, 1, 3, LAKHDZEVA_ALL},
    {"verify_detached", verify_detached, 0, 3, LAKHDZEVA_ALL}, {"verify_signer", verify_signer, 1, 3, NO_FLAGS}, {"verify_all", verify_all, 1, 3, NO_FLAGS},
    {"verify_all_detached", verify_all_detached, 0, 3, NO_FLAGS}, {"decrypt", decrypt, 1, 4, NO_FLAGS}, {"encrypt", encrypt_by_system, 2, 5, FORMS},
    {"encrypt_with_random", encrypt_with_random, 2, 6, FORMS}, {"format_signed", format_signed, 2, 4, FORMS},
    {"format_encrypted", format_encrypted, 2, 4, FORMS},
};
enum { EACH = 16, APART = 64, MOST_LENT = 6 };
static char area[(MOST_LENT + 1) * APART];

/* Makes the call with parts of their own, except that one part is as given. */
static void lie(size_t at, const char *what, size_t part, const void *start, size_t part_length, bool is_refused) {
    struct lent lent[MOST_LENT];
    for (size_t own = 0; own < MOST_LENT; own++) lent[own].start = area + (own + 1) * APART, lent[own].length = EACH;
    if (part < MOST_LENT) lent[part].start = (char *)(uintptr_t)start, lent[part].length = part_length;
    memset(area, 'x', sizeof area);
    counts[0] = counts[1] = UNSET;
    uint32_t status = CALLS[at].call(lent);
    bool same = true;
    for (size_t octet = 0; octet < sizeof area; octet++) same = same && area[octet] == 'x';
    if (is_refused ? status != LAKHDZEVA_USAGE || counts[0] != UNSET || counts[1] != UNSET : status == LAKHDZEVA_USAGE || !status)
        printf("%s, %s, part %d: %u %s\n", CALLS[at].name, what, (int)part, status, lakhdzeva_name(status)), same = false;
    check(what, same);
}

static void try_each_argument(void) {
    for (size_t at = 0; at < sizeof CALLS / sizeof *CALLS; at++) {
        /* The place of the signer is a number without octets. */
        size_t places = CALLS[at].places, all = CALLS[at].all, said = places + (CALLS[at].call == verify_signer);
        to_count[0] = &counts[0], to_count[1] = &counts[1];
        asked = places == 2 ? LAKHDZEVA_DETACH : 0;
        lie(at, "parts that are sound", MOST_LENT, NULL, 0, false);
        for (size_t part = 0; part < all; part++) {
            static const size_t lengths[] = {SIZE_MAX / 2 + 1, SIZE_MAX - 1, SIZE_MAX};
            lie(at, "no pointer and one octet", part, NULL, 1, true);
            for (size_t one = 0; one < sizeof lengths / sizeof *lengths; one++) {
                lie(at, "no pointer and a long length", part, NULL, lengths[one], true);
                lie(at, "a length of 2^63 or more", part, area + (part + 1) * APART, lengths[one], true);
            }
            for (size_t one = 0; one < said; one++) lie(at, "a part on a length", part, (char *)&counts[one] + sizeof *counts - 1, EACH, true);
            for (size_t place_at = 0; place_at < places; place_at++) {
                if (part == place_at) continue;
                char *start = area + (place_at + 1) * APART;
                lie(at, "a part that begins in a place", part, start + EACH - 1, EACH, true);
                lie(at, "a part that ends in a place", part, start - EACH + 1, EACH, true);
                lie(at, "a part in a place", part, start + 1, EACH - 2, true);
                lie(at, "a part around a place", part, start - 1, EACH + 2, true);
                lie(at, "a part behind a place", part, start + EACH, EACH, false);
                lie(at, "a part before a place", part, start - EACH, EACH, false);
            }
        }
        for (size_t one = 0; one < said; one++) {
            to_count[one] = NULL;
            lie(at, "a place without a length", MOST_LENT, NULL, 0, true);
            to_count[one] = &counts[one];
        }
        if (said == 2) {
            to_count[1] = &counts[0];
            lie(at, "both lengths are one", MOST_LENT, NULL, 0, true);
            to_count[1] = &counts[1];
        }
        for (unsigned bit = 0; bit < 32 && CALLS[at].flags != NO_FLAGS; bit++) {
            asked = 1U << bit;
            lie(at, "a flag", MOST_LENT, NULL, 0, !(asked & (unsigned)CALLS[at].flags));
        }
    }
}

static void try_places(void) {
    char edge[70];
    memset(edge, 'x', sizeof edge);
    length = UNSET;
    check("a place that is too small by one octet", lakhdzeva_verify(TEXT(SIGNING), TEXT(SIGNED), 0, edge, 69, &length) == LAKHDZEVA_WRITE && length == 70);
    bool same = true;
    for (size_t at = 0; at < sizeof edge; at++) same = same && edge[at] == 'x';
    check("is as it was", same);
    length = UNSET;
    check("no place says the length", lakhdzeva_verify(TEXT(SIGNING), TEXT(SIGNED), 0, NULL, 0, &length) == LAKHDZEVA_WRITE && length == 70);
    check("a place that fits", lakhdzeva_verify(TEXT(SIGNING), TEXT(SIGNED), 0, edge, 70, &length) == 0 && length == 70 && !memcmp(edge, CLAIMS, 70));

    /* An empty payload, and an empty plaintext, without any place. */
    fresh();
    check("an empty payload is signed", lakhdzeva_sign(TEXT(SIGNING), NULL, 0, LAKHDZEVA_COMPACT, NULL, 0, place, ROOM, &length) == 0);
    size_t signed_length = length;
    length = UNSET;
    check("and verified without a place", lakhdzeva_verify(TEXT(SIGNING), place, signed_length, 0, NULL, 0, &length) == 0 && length == 0);
}

/* Texts and places at the end of their memory: an octet behind them ends the run. */
static char *at_the_end(const char *octets, size_t count) {
    size_t page = (size_t)sysconf(_SC_PAGESIZE), size = (count + page - 1) / page * page;
    char *memory = (char *)mmap(NULL, size + page, PROT_READ | PROT_WRITE, MAP_PRIVATE | MAP_ANONYMOUS, -1, 0);
    if (memory == MAP_FAILED || mprotect(memory + size, page, PROT_NONE)) abort();
    return (char *)memcpy(memory + size - count, octets, count);
}

#define SET_OF(keys) "{\"keys\":[" keys "]}"
#define SIGNING_K "AyM1SysPpbyDfgZld3umj1qzKObwVMkoqQ-EstJQLr_T-1qS0gZH75aKtMN3Yj0iPS4hcgUuTwjAzZr1Z9CAow"
#define KEY_OF(k) "{\"kty\":\"oct\",\"k\":\"" k "\"}"

static void try_signers(void) {
    const char *keys = at_the_end(TEXT(SIGNING)), *object = at_the_end(TEXT(SIGNED));
    char *payload = at_the_end(CLAIMS, sizeof CLAIMS - 1);
    memset(payload, 'x', sizeof CLAIMS - 1);
    length = UNSET;
    check("one signer made RFC 7515 A.1", lakhdzeva_verify_all(keys, sizeof SIGNING - 1, 1, object, sizeof SIGNED - 1, payload, sizeof CLAIMS - 1,
        &length) == 0 && length == sizeof CLAIMS - 1 && !memcmp(payload, CLAIMS, length));
    memset(payload, 'x', sizeof CLAIMS - 1);
    check("a place that is too small by one octet", lakhdzeva_verify_all(keys, sizeof SIGNING - 1, 1, object, sizeof SIGNED - 1, payload + 1,
        sizeof CLAIMS - 2, &length) == LAKHDZEVA_WRITE && length == sizeof CLAIMS - 1 && payload[1] == 'x');
    static const size_t others[] = {0, 2, 64, 65, SIZE_MAX / 2, SIZE_MAX / 2 + 1, SIZE_MAX};
    for (size_t at = 0; at < sizeof others / sizeof *others; at++) {
        fresh();
        refuses("9: another number of signers", lakhdzeva_verify_all(TEXT(SIGNING), others[at], TEXT(SIGNED), 0, 0, &length), LAKHDZEVA_KEY);
        check("9: and with a detached payload", lakhdzeva_verify_all_detached(TEXT(SIGNING), others[at], TEXT(SIGNED), TEXT(CLAIMS)) == LAKHDZEVA_KEY);
    }
    static const struct {
        const char *what, *keys;
        uint32_t all, signers, wanted;
    } rows[] = {
        /* What LAKHDZEVA_ALL answers to the set, how many signers are named, and what lakhdzeva_verify_all answers. */
        {"a key of another type", SET_OF(KEY_OF(SIGNING_K) ",{\"kty\":\"RSA\",\"n\":\"AQAB\",\"e\":\"AQAB\"}"), 0, 2, LAKHDZEVA_KEY},
        {"a key of another type, and one signer", SET_OF(KEY_OF(SIGNING_K) ",{\"kty\":\"RSA\",\"n\":\"AQAB\",\"e\":\"AQAB\"}"), 0, 1, LAKHDZEVA_KEY},
        {"a damaged key", SET_OF(KEY_OF(SIGNING_K) "," KEY_OF("AyM1Sys!")), 0, 2, LAKHDZEVA_KEY},
        {"the same key twice", SET_OF(KEY_OF(SIGNING_K) "," KEY_OF(SIGNING_K)), 0, 2, LAKHDZEVA_KEY},
        /* The key has 64 octets. With one of zero after them HMAC with SHA-384 and with SHA-512 has the same block, and with SHA-256 it has not. */
        {"the key and a zero octet", SET_OF(KEY_OF(SIGNING_K) "," KEY_OF(SIGNING_K "A")), LAKHDZEVA_NOT_OPENED, 2, LAKHDZEVA_KEY},
        {"a key that made no signature", SET_OF(KEY_OF(SIGNING_K) "," KEY_OF("GawgguFyGrWKav7AX4VKUg")), LAKHDZEVA_NOT_OPENED, 2, LAKHDZEVA_NOT_OPENED},
    };
    for (size_t at = 0; at < sizeof rows / sizeof *rows; at++) {
        size_t count = strlen(rows[at].keys);
        fresh();
        uint32_t all = lakhdzeva_verify(rows[at].keys, count, TEXT(SIGNED), LAKHDZEVA_ALL, place, ROOM, &length);
        if (all != rows[at].all) printf("%s: LAKHDZEVA_ALL %u %s\n", rows[at].what, all, lakhdzeva_name(all));
        check("LAKHDZEVA_ALL is as it was", all == rows[at].all);
        fresh();
        refuses(rows[at].what, lakhdzeva_verify_all(rows[at].keys, count, rows[at].signers, TEXT(SIGNED), place, ROOM, &length), rows[at].wanted);
    }
    fresh();
    refuses("7: keys that are no JSON, before the object", lakhdzeva_verify_all(TEXT("{"), 1, TEXT("a.b"), place, ROOM, &length), LAKHDZEVA_JSON);
    fresh();
    refuses("9: the number, before the object", lakhdzeva_verify_all(TEXT(SIGNING), 2, TEXT("a.b"), place, ROOM, &length), LAKHDZEVA_KEY);
    fresh();
    refuses("10: and then the object", lakhdzeva_verify_all(TEXT(SIGNING), 1, TEXT("a.b"), place, ROOM, &length), LAKHDZEVA_FORM);

    fresh();
    is_usage("signers without a length", lakhdzeva_verify_all(TEXT(SIGNING), 1, TEXT(SIGNED), place, ROOM, NULL));
    is_usage("signers' keys without a pointer", lakhdzeva_verify_all(NULL, 7, 1, TEXT(SIGNED), place, ROOM, &length));
    is_usage("signers' object without a pointer", lakhdzeva_verify_all(TEXT(SIGNING), 1, NULL, 7, place, ROOM, &length));
    is_usage("signers' place without a pointer", lakhdzeva_verify_all(TEXT(SIGNING), 1, TEXT(SIGNED), NULL, 7, &length));
    is_usage("signers' keys of 2^63", lakhdzeva_verify_all(SIGNING, SIZE_MAX / 2 + 1, 1, TEXT(SIGNED), place, ROOM, &length));
    is_usage("signers' object of the most octets", lakhdzeva_verify_all(TEXT(SIGNING), 1, SIGNED, SIZE_MAX, place, ROOM, &length));
    is_usage("signers' place of the most octets", lakhdzeva_verify_all(TEXT(SIGNING), 1, TEXT(SIGNED), place, SIZE_MAX, &length));
    is_usage("signers' keys in the place", lakhdzeva_verify_all(place + 1, 5, 1, TEXT(SIGNED), place, 2, &length));
    is_usage("signers' object in the place", lakhdzeva_verify_all(TEXT(SIGNING), 1, place + 1, 5, place, 2, &length));
    is_usage("signers' length in the place", lakhdzeva_verify_all(TEXT(SIGNING), 1, TEXT(SIGNED), &length, sizeof length, &length));
    is_usage("signers' length in the keys", lakhdzeva_verify_all(&length, sizeof length, 1, TEXT(SIGNED), place, ROOM, &length));
    is_usage("signers' keys without a pointer, detached", lakhdzeva_verify_all_detached(NULL, 7, 1, TEXT(SIGNED), TEXT(CLAIMS)));
    is_usage("signers' object without a pointer, detached", lakhdzeva_verify_all_detached(TEXT(SIGNING), 1, NULL, 7, TEXT(CLAIMS)));
    is_usage("signers' payload without a pointer", lakhdzeva_verify_all_detached(TEXT(SIGNING), 1, TEXT(SIGNED), NULL, 1));
    is_usage("signers' payload of the most octets", lakhdzeva_verify_all_detached(TEXT(SIGNING), 1, TEXT(SIGNED), CLAIMS, SIZE_MAX));
    is_usage("signers' keys of 2^63, detached", lakhdzeva_verify_all_detached(SIGNING, SIZE_MAX / 2 + 1, 1, TEXT(SIGNED), TEXT(CLAIMS)));

    check("no keys at all", lakhdzeva_verify_all(NULL, 0, 0, TEXT(SIGNED), place, ROOM, &length) == LAKHDZEVA_JSON && length == 0);
    size_t apart_length;
    check("the payload of A.1 is detached", lakhdzeva_format_signed(TEXT(SIGNED), NULL, 0, LAKHDZEVA_COMPACT | LAKHDZEVA_DETACH, beside, ROOM, &apart_length,
        place, ROOM, &other) == 0);
    const char *apart = at_the_end(beside, apart_length), *claims = at_the_end(TEXT(CLAIMS));
    check("one signer with the payload", lakhdzeva_verify_all_detached(keys, sizeof SIGNING - 1, 1, apart, apart_length, claims, sizeof CLAIMS - 1) == 0);
    check("and not with another", lakhdzeva_verify_all_detached(keys, sizeof SIGNING - 1, 1, apart, apart_length, claims, 5) == LAKHDZEVA_NOT_OPENED);
    check("nor with one in the object", lakhdzeva_verify_all_detached(keys, sizeof SIGNING - 1, 1, object, sizeof SIGNED - 1, claims, 5) == LAKHDZEVA_FORM);
}

static void try_signer(void) {
    static const struct {
        const char *what, *keys;
        uint32_t wanted;
        size_t signer;
    } rows[] = {
        {"a key that is alone", SIGNING, 0, 0}, {"the key of the set", SET_OF(KEY_OF(SIGNING_K)), 0, 0},
        {"the first of two", SET_OF(KEY_OF(SIGNING_K) "," KEY_OF("GawgguFyGrWKav7AX4VKUg")), 0, 0},
        {"the second of two", SET_OF(KEY_OF("GawgguFyGrWKav7AX4VKUg") "," KEY_OF(SIGNING_K)), 0, 1},
        {"the first of two that sign alike", SET_OF(KEY_OF("GawgguFyGrWKav7AX4VKUg") "," KEY_OF(SIGNING_K) "," KEY_OF(SIGNING_K "A") "," KEY_OF(SIGNING_K)), 0, 1},
        {"a bad key before it", SET_OF("{\"kty\":\"RSA\"}," KEY_OF(SIGNING_K)), LAKHDZEVA_KEY, 0},
        {"a bad key behind it", SET_OF(KEY_OF(SIGNING_K) ",{}"), LAKHDZEVA_KEY, 0}, {"no such key", KEY_OF(SIGNING_K "AA"), LAKHDZEVA_NOT_OPENED, 0},
        {"a key for something else", "{\"kty\":\"oct\",\"k\":\"" SIGNING_K "\",\"use\":\"enc\"}", LAKHDZEVA_KEY_DOES_NOT_FIT, 0},
    };
    for (size_t at = 0; at < sizeof rows / sizeof *rows; at++) {
        const char *keys = at_the_end(rows[at].keys, strlen(rows[at].keys)), *object = at_the_end(TEXT(SIGNED));
        fresh();
        uint32_t status = lakhdzeva_verify_signer(keys, strlen(rows[at].keys), object, sizeof SIGNED - 1, place, ROOM, &length, &other);
        if (rows[at].wanted) refuses(rows[at].what, status, rows[at].wanted);
        else gives(rows[at].what, status, TEXT(CLAIMS));
        check("its place", other == rows[at].signer);
    }
    static const char second[] = SET_OF(KEY_OF("GawgguFyGrWKav7AX4VKUg") "," KEY_OF(SIGNING_K));
    fresh();
    check("a place that is too small by one octet", lakhdzeva_verify_signer(TEXT(second), TEXT(SIGNED), place, sizeof CLAIMS - 2, &length, &other) == LAKHDZEVA_WRITE
        && length == sizeof CLAIMS - 1 && other == 0 && place[0] == 'x');
    fresh();
    refuses("10: an object with two parts", lakhdzeva_verify_signer(TEXT(second), TEXT("a.b"), place, ROOM, &length, &other), LAKHDZEVA_FORM);
    fresh();
    is_usage("the signer in the place", lakhdzeva_verify_signer(TEXT(SIGNING), TEXT(SIGNED), &other, sizeof other, &length, &other));
    is_usage("no place for the signer", lakhdzeva_verify_signer(TEXT(SIGNING), TEXT(SIGNED), place, ROOM, &length, NULL));
}

/* The header of a recipient that asks for the most iterations: {"alg":"PBES2-HS256+A128KW","p2s":"AAAAAAAAAAA","p2c":2000000,"enc":"A128GCM"}. */
#define COSTLY "eyJhbGciOiJQQkVTMi1IUzI1NitBMTI4S1ciLCJwMnMiOiJBQUFBQUFBQUFBQSIsInAyYyI6MjAwMDAwMCwiZW5jIjoiQTEyOEdDTSJ9"

static void try_iterations(void) {
    static char many[8192];
    size_t many_length = (size_t)sprintf(many, "{\"iv\":\"AAAAAAAAAAAAAAAA\",\"tag\":\"AAAAAAAAAAAAAAAAAAAAAA\",\"ciphertext\":\"\","
        "\"protected\":\"eyJlbmMiOiJBMTI4R0NNIn0\",\"recipients\":[");
    for (int recipient = 0; recipient < 9; recipient++)
        many_length += (size_t)sprintf(many + many_length,
            "%s{\"encrypted_key\":\"%032d\",\"header\":{\"alg\":\"PBES2-HS256+A128KW\",\"p2s\":\"AAAAAAAAA%dA\",\"p2c\":2000000}}", recipient ? "," : "",
            recipient, recipient);
    many_length += (size_t)sprintf(many + many_length, "]}");
    static const char one[] = COSTLY ".AAAAAAAAAAAAAAAAAAAAAAAAAAAAAAAA.AAAAAAAAAAAAAAAA..AAAAAAAAAAAAAAAAAAAAAA";
    clock_t before = clock();
    static const uint64_t too_few[] = {0, 1, 600000, 1999999};
    for (size_t at = 0; at < sizeof too_few / sizeof *too_few; at++) {
        fresh();
        refuses("15: a stranger's object", lakhdzeva_decrypt(TEXT(PASSWORD), TEXT(one), NULL, 0, too_few[at], place, ROOM, &length), LAKHDZEVA_LIMIT);
    }
    /* 18,000,000 iterations are more than a call ever makes. */
    static const uint64_t most[] = {0, 16000000, 18000000, UINT64_MAX / 2 + 1, UINT64_MAX};
    for (size_t at = 0; at < sizeof most / sizeof *most; at++) {
        fresh();
        refuses("15: nine recipients", lakhdzeva_decrypt(TEXT(PASSWORD), many, many_length, NULL, 0, most[at], place, ROOM, &length), LAKHDZEVA_LIMIT);
    }
    double seconds = (double)(clock() - before) / CLOCKS_PER_SEC;
    if (seconds >= 0.5) printf("%.1f s of the processor\n", seconds);
    /* Each of the nine would take a second or more. */
    check("before any derivation", seconds < 0.5);
    fresh();
    refuses("14: a key of another algorithm costs nothing", lakhdzeva_decrypt(TEXT("{\"k\":\"AAAAAAAAAAAAAAAAAAAAAA\",\"kty\":\"oct\",\"alg\":\"A128KW\"}"),
        many, many_length, NULL, 0, 0, place, ROOM, &length), LAKHDZEVA_KEY_DOES_NOT_FIT);
    fresh();
    is_usage("iterations without a length", lakhdzeva_decrypt(TEXT(PASSWORD), TEXT(one), NULL, 0, UINT64_MAX, place, ROOM, NULL));
    is_usage("iterations, and the object in the place", lakhdzeva_decrypt(TEXT(PASSWORD), place + 1, 5, NULL, 0, UINT64_MAX, place, 2, &length));
}

/* Rooms for a template of a million octets: a signature repeats it, and a recipient does not. A key that signs takes 63 octets or more. */
static void try_rooms(void) {
    const size_t template_length = 1000000;
    check("the room of one signature", lakhdzeva_sign_room(62, template_length, 0) < 2 * template_length);
    check("the room of ten signatures", lakhdzeva_sign_room(9 * 64 + 63, template_length, 0) < 20 * template_length);
    check("the room of the most signatures", lakhdzeva_sign_room(SIZE_MAX / 2, template_length, 0) < 100 * template_length);
    check("the room of the most recipients", lakhdzeva_encrypt_room(SIZE_MAX / 2, template_length, 0) < 2 * template_length);
    check("rooms that no memory has", lakhdzeva_sign_room(SIZE_MAX / 2, SIZE_MAX / 2, 0) == SIZE_MAX && lakhdzeva_encrypt_room(1, SIZE_MAX, 1) == SIZE_MAX);
}

static void try_contents(void) {
    static char object[ROOM], text[ROOM], back[ROOM];
    size_t object_length, text_length, back_length, beside_length;
    fresh();
    check("a payload is left out", lakhdzeva_sign(TEXT(SIGNING), NULL, 0, LAKHDZEVA_DETACH, TEXT(LINE), object, ROOM, &object_length) == 0);
    check("and is not in the object", !memmem(object, object_length, TEXT("payload")));
    check("it verifies with the payload", lakhdzeva_verify_detached(TEXT(SIGNING), object, object_length, 0, TEXT(LINE)) == 0);
    check("and with each of the keys", lakhdzeva_verify_detached(TEXT(SIGNING), object, object_length, LAKHDZEVA_ALL, TEXT(LINE)) == 0);
    check("but not with another one", lakhdzeva_verify_detached(TEXT(SIGNING), object, object_length, 0, LINE, 5) == LAKHDZEVA_NOT_OPENED);
    check("and not alone", lakhdzeva_verify(TEXT(SIGNING), object, object_length, 0, place, ROOM, &length) == LAKHDZEVA_FORM);
    check("the payload is handed in, for compact form", lakhdzeva_format_signed(object, object_length, TEXT(LINE), LAKHDZEVA_COMPACT, text, ROOM,
        &text_length, NULL, 0, NULL) == 0);
    check("which verifies", lakhdzeva_verify(TEXT(SIGNING), text, text_length, 0, place, ROOM, &length) == 0 && length == sizeof LINE - 1
        && !memcmp(place, LINE, length));
    check("and goes back", lakhdzeva_format_signed(text, text_length, NULL, 0, LAKHDZEVA_DETACH, back, ROOM, &back_length, beside, ROOM, &beside_length) == 0
        && back_length == object_length && !memcmp(back, object, back_length) && beside_length == sizeof LINE - 1 && !memcmp(beside, LINE, beside_length));
    fresh();
    check("a second place that is too small", lakhdzeva_format_signed(text, text_length, NULL, 0, LAKHDZEVA_DETACH, place, ROOM, &length, beside,
        sizeof LINE - 2, &other) == LAKHDZEVA_WRITE && other == sizeof LINE - 1 && length == object_length && place[0] == 'x' && beside[0] == 'x');

    check("a ciphertext is detached", lakhdzeva_encrypt(TEXT(WRAPPING), NULL, 0, LAKHDZEVA_DETACH, TEXT(LINE), object, ROOM, &object_length, beside, ROOM,
        &beside_length) == 0 && beside_length == 32);
    check("it decrypts with the ciphertext", lakhdzeva_decrypt(TEXT(WRAPPING), object, object_length, beside, beside_length, 0, place, ROOM, &length) == 0
        && length == sizeof LINE - 1 && !memcmp(place, LINE, length));
    check("and not without", lakhdzeva_decrypt(TEXT(WRAPPING), object, object_length, NULL, 0, 0, place, ROOM, &length) != 0 && length == 0);
    beside[3] ^= 1;
    check("or with another one", lakhdzeva_decrypt(TEXT(WRAPPING), object, object_length, beside, beside_length, 0, place, ROOM, &length) == LAKHDZEVA_NOT_OPENED);
    beside[3] ^= 1;
    check("it goes to compact form", lakhdzeva_format_encrypted(object, object_length, beside, beside_length, LAKHDZEVA_COMPACT, text, ROOM, &text_length,
        NULL, 0, NULL) == 0);
    check("which decrypts", lakhdzeva_decrypt(TEXT(WRAPPING), text, text_length, NULL, 0, 0, place, ROOM, &length) == 0 && length == sizeof LINE - 1);
}

static void try_random(void) {
    static char one[ROOM], two[ROOM];
    size_t one_length, two_length;
    check("a key is made", lakhdzeva_generate(TEXT("{\"alg\":\"HS512\"}"), one, ROOM, &one_length) == 0);
    check("and another", lakhdzeva_generate(TEXT("{\"alg\":\"HS512\"}"), two, ROOM, &two_length) == 0);
    check("which differ", one_length == two_length && memcmp(one, two, one_length));
    check("a long key is made", lakhdzeva_generate(TEXT("{\"bytes\":4096}"), one, ROOM, &one_length) == 0 && one_length > 5461);
    check("a plaintext is encrypted", lakhdzeva_encrypt(TEXT(WRAPPING), NULL, 0, LAKHDZEVA_COMPACT, TEXT(LINE), one, ROOM, &one_length, NULL, 0, NULL) == 0);
    check("and again", lakhdzeva_encrypt(TEXT(WRAPPING), NULL, 0, LAKHDZEVA_COMPACT, TEXT(LINE), two, ROOM, &two_length, NULL, 0, NULL) == 0);
    check("both differ", one_length == two_length && memcmp(one, two, one_length));

    /* The most that a set can draw: 64 keys with a salt or a vector each. A pair of these keys has few octets. */
    static char set[64 * 128];
    static char object[1 << 17], plaintext[64];
    size_t object_length, plaintext_length, at = (size_t)sprintf(set, "{\"keys\":[");
    for (int key = 0; key < 64; key++) at += (size_t)sprintf(set + at, "%s{\"k\":\"AAAAAAAAAAAAAAAAAAAAAA\",\"kty\":\"oct\"}", key ? "," : "");
    at += (size_t)sprintf(set + at, "]}");
    check("64 keys with a vector each", lakhdzeva_encrypt(set, at, TEXT("{\"protected\":{\"alg\":\"A128GCMKW\",\"enc\":\"A256CBC-HS512\"}}"), 0, TEXT(LINE), object,
        lakhdzeva_encrypt_room(at, 60, sizeof LINE - 1), &object_length, NULL, 0, NULL) == 0);
    check("each decrypts", lakhdzeva_decrypt(set, at, object, object_length, NULL, 0, 0, plaintext, sizeof plaintext, &plaintext_length) == 0
        && plaintext_length == sizeof LINE - 1);
    /* Passwords may be short: each draws a salt of 16 octets. */
    at = (size_t)sprintf(set, "{\"keys\":[");
    for (int key = 0; key < 64; key++) at += (size_t)sprintf(set + at, "%s{\"k\":\"AA\",\"kty\":\"oct\"}", key ? "," : "");
    at += (size_t)sprintf(set + at, "]}");
    check("64 passwords with a salt each", lakhdzeva_encrypt(set, at, TEXT("{\"protected\":{\"alg\":\"PBES2-HS512+A256KW\",\"enc\":\"A256CBC-HS512\",\"p2c\":1000}}"), 0,
        TEXT(LINE), object, lakhdzeva_encrypt_room(at, 80, sizeof LINE - 1), &object_length, NULL, 0, NULL) == 0);
    check("the first decrypts, if each of the recipients may cost its iterations", lakhdzeva_decrypt(TEXT(PASSWORD), object, object_length, NULL, 0, 64000,
        plaintext, sizeof plaintext, &plaintext_length) == 0 && plaintext_length == sizeof LINE - 1);
    check("and not with one iteration less", lakhdzeva_decrypt(TEXT(PASSWORD), object, object_length, NULL, 0, 63999, plaintext, sizeof plaintext,
        &plaintext_length) == LAKHDZEVA_LIMIT && plaintext_length == 0);
}

/* Keys with a member that nests 120 levels deep: the most stack that reading takes. */
static char deep[1024];
static size_t deep_length;

static void *work(void *wrong) {
    char payload[128], object[2048], plaintext[128];
    size_t payload_length, object_length, plaintext_length;
    for (int turn = 0; turn < 50; turn++) {
        bool right = lakhdzeva_verify(deep, deep_length, TEXT(SIGNED), 0, payload, sizeof payload, &payload_length) == 0 && payload_length == 70
            && !memcmp(payload, CLAIMS, 70)
            && lakhdzeva_encrypt(TEXT(WRAPPING), NULL, 0, 0, payload, payload_length, object, sizeof object, &object_length, NULL, 0, NULL) == 0
            && lakhdzeva_decrypt(TEXT(WRAPPING), object, object_length, NULL, 0, 0, plaintext, sizeof plaintext, &plaintext_length) == 0
            && plaintext_length == 70 && !memcmp(plaintext, CLAIMS, 70)
            && lakhdzeva_verify(TEXT(WRAPPING), TEXT(SIGNED), 0, payload, sizeof payload, &payload_length) == LAKHDZEVA_KEY_DOES_NOT_FIT;
        if (!right) *(bool *)wrong = true;
    }
    return NULL;
}

static void try_threads(void) {
    enum { THREADS = 64 };
    pthread_t threads[THREADS];
    bool wrong[THREADS] = {false};
    pthread_attr_t small;
    deep_length = (size_t)sprintf(deep, "%.*s,\"deep\":", (int)sizeof SIGNING - 2, SIGNING);
    for (int at = 0; at < 120; at++) deep[deep_length++] = '[';
    for (int at = 0; at < 120; at++) deep[deep_length++] = ']';
    deep[deep_length++] = '}';
    pthread_attr_init(&small);
    check("a stack of 256 KiB", pthread_attr_setstacksize(&small, 256 * 1024) == 0);
    for (int at = 0; at < THREADS; at++) check("a thread begins", pthread_create(&threads[at], &small, work, &wrong[at]) == 0);
    for (int at = 0; at < THREADS; at++) {
        pthread_join(threads[at], NULL);
        check("64 threads at once", !wrong[at]);
    }
}

int main(void) {
    check("the version", !strcmp(lakhdzeva_version(), VERSION));
    for (uint32_t status = 0; status < 20; status++) {
        static const char *const names[] = {"Ok", "Usage", "Read", "Write", "Memory", "Random", "Base64", "Json", "Number", "Key", "Form", "Header",
            "Unsupported", "NoAlgorithm", "KeyDoesNotFit", "Limit", "NotCompact", "NotOpened", "Unknown", "Unknown"};
        check("the name of a number", !strcmp(lakhdzeva_name(status), names[status]));
    }
    try_standards();
    try_refusals();
    try_arguments();
    try_each_argument();
    try_places();
    try_signers();
    try_signer();
    try_iterations();
    try_rooms();
    try_contents();
    try_random();
    try_threads();
    printf("%d passed, %d failed\n", passed, failed);
    return failed != 0;
}
