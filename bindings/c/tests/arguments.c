/* Compiles lakhdzeva.c over functions that stand for the proved ones, and over a getrandom(2), a malloc and a free of its own: what the proved
   functions get, also where the caller has NULL, how random octets are drawn, and how memory is wiped. */
#include <stdio.h>
#include <stdlib.h>
#include <string.h>

static void *given_by_malloc(size_t size);
static void freed(void *old);
#define malloc given_by_malloc
#define free freed
#include "../lakhdzeva.c"
#undef malloc
#undef free

static int passed, failed;

static void check(const char *what, bool holds) {
    if (holds) passed++;
    else failed++;
    if (!holds) printf("FAILED: %s\n", what);
}

/* ---- What a proved function got */

static bool has_pointers, is_given, is_compact, is_detached, is_all;
static char template[8];
static uint32_t answer;
static size_t got_random[4], calls;
static uint8_t first_random, last_random;
static uint64_t got_number;

static void takes(const uint8_t *start, size_t length) {
    has_pointers = has_pointers && start && !(length && (start[0] == 255 || start[length - 1] == 255));
}

static void takes_template(const uint8_t *start, size_t length) {
    takes(start, length);
    if (start && length < sizeof template) memcpy(template, start, length);
}

static void takes_random(const uint8_t *start, size_t length) {
    takes(start, length);
    got_random[calls++] = length;
    if (length) first_random = start[0], last_random = start[length - 1];
}

static void takes_flags(bool given, bool compact, bool detach, bool all, uint64_t number) {
    is_given = given, is_compact = compact, is_detached = detach, is_all = all, got_number = number;
}

#define T const uint8_t *
#define P uint8_t *
#define TAKES(text) takes(text, text##_length)

uint32_t lakhdzeva_core_generate(T template_text, size_t template_length, T random, size_t random_length, P key, size_t room, size_t *length) {
    return takes_template(template_text, template_length), takes_random(random, random_length), takes(key, 0), *length = room, answer;
}
uint32_t lakhdzeva_core_thumbprints(T keys, size_t keys_length, uint32_t bits, P lines, size_t room, size_t *length) {
    return TAKES(keys), takes_flags(0, 0, 0, 0, bits), takes(lines, 0), *length = room, answer;
}
uint32_t lakhdzeva_core_judge_keys(T keys, size_t keys_length, P uses, size_t room, size_t *length) {
    return TAKES(keys), takes(uses, 0), *length = room, answer;
}
uint32_t lakhdzeva_core_sign(T keys, size_t keys_length, T template_text, size_t template_length, bool compact, bool detach, T payload, size_t payload_length,
    P object, size_t room, size_t *length) {
    takes_template(template_text, template_length), takes_flags(0, compact, detach, 0, 0);
    return TAKES(keys), TAKES(payload), takes(object, 0), *length = room, answer;
}
uint32_t lakhdzeva_core_verify(T keys, size_t keys_length, T object, size_t object_length, bool all, P payload, size_t room, size_t *length) {
    return TAKES(keys), TAKES(object), takes_flags(0, 0, 0, all, 0), takes(payload, 0), *length = room, answer;
}
uint32_t lakhdzeva_core_verify_detached(T keys, size_t keys_length, T object, size_t object_length, bool all, T payload, size_t payload_length) {
    return TAKES(keys), TAKES(object), TAKES(payload), takes_flags(0, 0, 0, all, 0), answer;
}
uint32_t lakhdzeva_core_verify_signer(T keys, size_t keys_length, T object, size_t object_length, P payload, size_t room, size_t *length,
    size_t *signer) {
    return TAKES(keys), TAKES(object), takes(payload, 0), *length = room, *signer = 5, answer;
}
uint32_t lakhdzeva_core_verify_all(T keys, size_t keys_length, size_t signers, T object, size_t object_length, P payload, size_t room,
    size_t *length) {
    return TAKES(keys), TAKES(object), takes_flags(0, 0, 0, 0, signers), takes(payload, 0), *length = room, answer;
}
uint32_t lakhdzeva_core_verify_all_detached(T keys, size_t keys_length, size_t signers, T object, size_t object_length, T payload,
    size_t payload_length) {
    return TAKES(keys), TAKES(object), TAKES(payload), takes_flags(0, 0, 0, 0, signers), answer;
}
uint32_t lakhdzeva_core_format_signed(T object, size_t object_length, bool given, T payload, size_t payload_length, bool compact, bool detach,
    P text, size_t text_room, size_t *text_length, P content, size_t content_room, size_t *content_length) {
    TAKES(object), TAKES(payload), takes_flags(given, compact, detach, 0, 1), takes(text, 0), takes(content, 0);
    return *text_length = text_room, *content_length = content_room, answer;
}
uint32_t lakhdzeva_core_encrypt(T keys, size_t keys_length, T template_text, size_t template_length, bool compact, bool detach, T random,
    size_t random_length, T plaintext, size_t plaintext_length, P object, size_t object_room, size_t *object_length, P ciphertext,
    size_t ciphertext_room, size_t *ciphertext_length) {
    TAKES(keys), takes_template(template_text, template_length), takes_random(random, random_length), TAKES(plaintext);
    takes(object, 0), takes(ciphertext, 0), takes_flags(0, compact, detach, 0, 0);
    return *object_length = object_room, *ciphertext_length = ciphertext_room, answer;
}
uint32_t lakhdzeva_core_decrypt(T keys, size_t keys_length, T object, size_t object_length, bool given, T ciphertext, size_t ciphertext_length,
    uint64_t most_iterations, P plaintext, size_t room, size_t *length) {
    return TAKES(keys), TAKES(object), TAKES(ciphertext), takes_flags(given, 0, 0, 0, most_iterations), takes(plaintext, 0), *length = room, answer;
}
uint32_t lakhdzeva_core_format_encrypted(T object, size_t object_length, bool given, T ciphertext, size_t ciphertext_length, bool compact,
    bool detach, P text, size_t text_room, size_t *text_length, P content, size_t content_room, size_t *content_length) {
    TAKES(object), TAKES(ciphertext), takes_flags(given, compact, detach, 0, 2), takes(text, 0), takes(content, 0);
    return *text_length = text_room, *content_length = content_room, answer;
}

/* ---- The system's random octets: those of each call in turn, and no more */

static const long *system_gives;

ssize_t getrandom(void *octets, size_t length, unsigned flags) {
    static uint8_t next;
    long gives = *system_gives++;
    if (flags || gives > (long)length) check("getrandom is asked for fewer octets", false), gives = 0;
    if (gives < 0) return errno = (int)-gives, -1;
    for (long at = 0; at < gives; at++) ((uint8_t *)octets)[at] = ++next % 128;
    return gives;
}

static void fresh(uint32_t wanted_answer, const long *gives) {
    has_pointers = true;
    is_given = is_compact = is_detached = is_all = false;
    memset(template, 0, sizeof template);
    memset(got_random, 0, sizeof got_random);
    calls = 0;
    answer = wanted_answer;
    system_gives = gives;
}

/* Whether the call had this status, and the proved function got pointers. */
static void gets(const char *what, uint32_t status, uint32_t wanted) {
    check(what, status == wanted && has_pointers);
}

static void try_null(void) {
    static const long one[] = {64}, more[] = {96};
    size_t a, b;
    fresh(13, one);
    gets("a template of NULL", lakhdzeva_generate(NULL, 0, NULL, 0, &a), 13);
    check("is {}", !strcmp(template, "{}"));
    fresh(13, NULL);
    gets("no random octets", lakhdzeva_generate_with_random("", 0, NULL, 0, NULL, 0, &a), 13);
    check("and an empty template", !*template);
    gets("thumbprints of NULL", lakhdzeva_thumbprints(NULL, 0, 512, NULL, 0, &a), 13);
    check("their hash", got_number == 512);
    gets("judge NULL", lakhdzeva_judge_keys(NULL, 0, NULL, 0, &a), 13);
    gets("sign with NULL", lakhdzeva_sign(NULL, 0, NULL, 0, 0, NULL, 0, NULL, 0, &a), 13);
    check("its template", !strcmp(template, "{}") && !is_compact && !is_detached);
    gets("sign in compact form", lakhdzeva_sign(NULL, 0, NULL, 0, LAKHDZEVA_COMPACT, NULL, 0, NULL, 0, &a), 13);
    check("its form", is_compact && !is_detached);
    gets("sign detached", lakhdzeva_sign(NULL, 0, NULL, 0, LAKHDZEVA_DETACH, NULL, 0, NULL, 0, &a), 13);
    check("its form", !is_compact && is_detached);
    gets("verify with NULL", lakhdzeva_verify(NULL, 0, NULL, 0, 0, NULL, 0, &a), 13);
    check("and one key", !is_all);
    gets("verify with each key", lakhdzeva_verify(NULL, 0, NULL, 0, LAKHDZEVA_ALL, NULL, 0, &a), 13);
    check("with all", is_all);
    gets("a detached payload of NULL", lakhdzeva_verify_detached(NULL, 0, NULL, 0, 0, NULL, 0), 13);
    check("and one key", !is_all);
    gets("with each key", lakhdzeva_verify_detached(NULL, 0, NULL, 0, LAKHDZEVA_ALL, NULL, 0), 13);
    check("with all", is_all);
    gets("the signer with NULL", lakhdzeva_verify_signer(NULL, 0, NULL, 0, NULL, 0, &a, &b), 13);
    check("and its place", b == 5);
    gets("signers with NULL", lakhdzeva_verify_all(NULL, 0, 7, NULL, 0, NULL, 0, &a), 13);
    check("their number", got_number == 7);
    gets("signers of NULL", lakhdzeva_verify_all_detached(NULL, 0, 8, NULL, 0, NULL, 0), 13);
    check("their number", got_number == 8);
    gets("decrypt with NULL", lakhdzeva_decrypt(NULL, 0, NULL, 0, NULL, 0, UINT64_MAX, NULL, 0, &a), 13);
    check("without a ciphertext", !is_given && got_number == UINT64_MAX);
    gets("decrypt with an empty ciphertext", lakhdzeva_decrypt(NULL, 0, NULL, 0, "", 0, 0, NULL, 0, &a), 13);
    check("which is given", is_given && !got_number);
    fresh(13, more);
    gets("encrypt with NULL", lakhdzeva_encrypt(NULL, 0, NULL, 0, 0, NULL, 0, NULL, 0, &a, NULL, 0, NULL), 13);
    check("its template", !strcmp(template, "{}") && !is_compact && !is_detached);
    gets("encrypt without random octets", lakhdzeva_encrypt_with_random(NULL, 0, NULL, 0, FORMS, NULL, 0, NULL, 0, NULL, 0, &a, NULL, 0, &b), 13);
    check("its form", is_compact && is_detached);
    gets("format NULL", lakhdzeva_format_signed(NULL, 0, NULL, 0, LAKHDZEVA_COMPACT, NULL, 0, &a, NULL, 0, NULL), 13);
    check("without a payload", !is_given && is_compact && !is_detached && got_number == 1);
    gets("format with an empty payload", lakhdzeva_format_signed(NULL, 0, "", 0, LAKHDZEVA_DETACH, NULL, 0, &a, NULL, 0, &b), 13);
    check("which is given", is_given && !is_compact && is_detached);
    gets("format with an empty ciphertext", lakhdzeva_format_encrypted(NULL, 0, "", 0, 0, NULL, 0, &a, NULL, 0, NULL), 13);
    check("of the other kind", is_given && got_number == 2);
    /* An empty place can be anywhere. */
    char text[4] = "{}";
    gets("an empty place in a text", lakhdzeva_verify(text, 3, NULL, 0, 0, text + 1, 0, &a), 13);
    gets("an empty text in a place", lakhdzeva_verify(text + 1, 0, NULL, 0, 0, text, 3, &a), 13);
}

static void try_draws(void) {
    static const struct {
        const char *what;
        long gives[8];
        size_t drawn;
    } rows[] = {
        {"all at once", {64}, 64}, {"in pieces", {1, 62, 1}, 64}, {"after interruptions", {-EINTR, 60, -EINTR, 4}, 64}, {"nothing", {0}, 0},
        {"a failure", {-EIO}, 0}, {"a piece and nothing", {10, 0}, 0}, {"a piece and a failure", {63, -EAGAIN}, 0},
    };
    size_t a;
    for (size_t at = 0; at < sizeof rows / sizeof *rows; at++) {
        fresh(0, rows[at].gives);
        gets(rows[at].what, lakhdzeva_generate("{}", 2, NULL, 0, &a), 0);
        check("so many are there", calls == 1 && got_random[0] == rows[at].drawn);
        check("and they follow each other", !rows[at].drawn || (uint8_t)(last_random - first_random) % 128 == 63);
    }
    static const long twice[] = {64, 4096}, one_fails[] = {64, -EIO}, most[] = {80 + 16 * 64};
    fresh(5, twice);
    gets("too few are not enough", lakhdzeva_generate("{}", 2, NULL, 0, &a), 5);
    check("so more are drawn, once", calls == 2 && got_random[1] == 4096);
    fresh(5, one_fails);
    gets("the second draw fails", lakhdzeva_generate("{}", 2, NULL, 0, &a), 5);
    check("and hands in none", calls == 2 && got_random[1] == 0);
    static const struct {
        size_t keys;
        long drawn[2];
    } sets[] = {{0, {96}}, {21, {96}}, {22, {112}}, {43, {112}}, {22 * 62 + 21, {80 + 16 * 63}}, {22 * 63, {80 + 16 * 64}}, {100000, {80 + 16 * 64}}};
    static char keys[100000];
    for (size_t at = 0; at < sizeof sets / sizeof *sets; at++) {
        fresh(0, sets[at].drawn);
        gets("octets for each key", lakhdzeva_encrypt(keys, sets[at].keys, NULL, 0, 0, NULL, 0, NULL, 0, &a, NULL, 0, NULL), 0);
        check("all of them", calls == 1 && (long)got_random[0] == sets[at].drawn[0]);
    }
    static const long fails[] = {-EIO};
    fresh(5, fails);
    gets("a draw that fails", lakhdzeva_encrypt(NULL, 0, NULL, 0, 0, NULL, 0, NULL, 0, &a, NULL, 0, NULL), 5);
    check("hands in none", calls == 1 && got_random[0] == 0);
    fresh(0, most);
    check("a wrong length goes no further", lakhdzeva_encrypt("", SIZE_MAX, NULL, 0, 0, NULL, 0, NULL, 0, &a, NULL, 0, NULL) == 1 && !calls);
}

/* ---- Memory: the blocks begin at multiples of 16, and are zero when they are freed */

static bool has_memory = true;
static int blocks;
/* How far the blocks of this malloc are from a multiple of 16, and where the last one begins and ends. */
static size_t odd;
static uint8_t *begins, *ends;

static void *given_by_malloc(size_t size) {
    if (!has_memory) return NULL;
    uint8_t *start = aligned_alloc(16, (size + odd + 15) / 16 * 16);
    blocks++;
    begins = start + odd;
    ends = begins + size;
    return begins;
}

/* The block that is freed next, and its size. It begins soon behind what malloc gave. */
static uint8_t *block;
static size_t block_size, seen;

static void freed(void *old) {
    if (!old) return;
    if ((uintptr_t)block - (uintptr_t)old <= 2 * FRONT) {
        bool is_zero = true;
        for (size_t at = 0; at < block_size; at++) is_zero = is_zero && !block[at];
        check("a block that is freed is zero", is_zero);
        seen++;
    }
    blocks--;
    free((uint8_t *)old - (uintptr_t)old % 16);
}

static void fill(uint8_t *new, size_t size) {
    check("a block begins at a multiple of 16", new && (uintptr_t)new % 16 == 0);
    check("and is within what malloc gave", new >= begins && new + size <= ends);
    memset(new, 'x', size);
    block = new, block_size = size;
}

static void try_memory(void) {
    static const size_t sizes[] = {1, 24, 25, 100, 5000}, odds[] = {0, 1, 4, 8, 15};
    lakhdzeva_wiped_free(NULL);
    check("too much memory", !lakhdzeva_wiped_malloc(SIZE_MAX) && !lakhdzeva_wiped_malloc(SIZE_MAX - FRONT - ALIGNMENT + 1) && !blocks);
    for (size_t of = 0; of < 5; of++)
        for (size_t from = 0; from < 5; from++)
            for (size_t to = 0; to < 5; to++) {
                odd = odds[of];
                uint8_t *old = from % 2 ? lakhdzeva_wiped_malloc(sizes[from]) : lakhdzeva_wiped_realloc(NULL, sizes[from]);
                fill(old, sizes[from]);
                size_t kept = sizes[from] < sizes[to] ? sizes[from] : sizes[to];
                has_memory = false;
                check("no memory", !lakhdzeva_wiped_realloc(old, sizes[to]) && blocks == 1 && old[0] == 'x' && old[sizes[from] - 1] == 'x');
                has_memory = true;
                uint8_t *moved = lakhdzeva_wiped_realloc(old, sizes[to]);
                check("a block is moved", moved && moved != old && blocks == 1 && moved[0] == 'x' && moved[kept - 1] == 'x');
                fill(moved, sizes[to]);
                lakhdzeva_wiped_free(moved);
                check("and freed", !blocks && seen == 2);
                seen = 0;
            }
}

int main(void) {
    try_null();
    try_memory();
    try_draws();
    printf("%d passed, %d failed\n", passed, failed);
    return failed != 0;
}
