/* The commands of `jose` for keys and objects, over the library: the trials of the program are tried with it too. It takes the words of the
   program, reads its inputs whole, makes one call, and writes the outputs of the program, its line and its status. The commands of `b64`, and
   words that it does not know, it leaves to the program in the variable PROGRAM.

   Each place lies at the end of its memory: an octet that is written behind it ends the run. Octets before it, and those behind an answer, are
   compared after the call. A call is made twice: with a place that is too small by one octet, which has to be refused with the right length,
   and with one that is just large enough. The rooms of the header have to suffice. */
#define _GNU_SOURCE
#include "lakhdzeva.h"

#include <fcntl.h>
#include <stdbool.h>
#include <stdio.h>
#include <stdlib.h>
#include <string.h>
#include <sys/mman.h>
#include <unistd.h>

enum { FILLED = 0xa5, BEFORE = 64, LARGE = 1 << 23 };

struct octets {
    uint8_t *start;
    size_t length;
};

/* A place at the end of its memory, and the length that a call gave. */
struct place {
    uint8_t *memory, *start;
    size_t size, room, length;
};

/* The commands, with the letters of their options. */
static const char *const COMMANDS[][2] = {
    {"jwk gen", "iRo"}, {"jwk thp", "iao"}, {"jws sig", "sIkoOc"}, {"jws ver", "iIkaO"}, {"jws fmt", "iIoOc"},
    {"jwe enc", "iIkoOcR"}, {"jwe dec", "iIkO"}, {"jwe fmt", "iIoOc"},
};

static const char *values[128];
static char **words;

static __attribute__((noreturn)) void broken(const char *what) {
    fprintf(stderr, "the library is wrong: %s\n", what);
    abort();
}

static __attribute__((noreturn)) void refused(uint32_t status) {
    fprintf(stderr, "jose: %u %s\n", status, lakhdzeva_name(status));
    exit(1);
}

static __attribute__((noreturn)) void leave_to_program(void) {
    const char *program = getenv("PROGRAM");
    if (program) execv(program, words);
    broken("PROGRAM is not set");
}

/* ---- inputs and outputs */

static struct octets read_all(int file) {
    struct octets all = {NULL, 0};
    size_t room = 0;
    for (;;) {
        if (all.length == room && !(all.start = realloc(all.start, room = room ? 2 * room : 65536))) refused(LAKHDZEVA_MEMORY);
        ssize_t got = read(file, all.start + all.length, room - all.length);
        if (got < 0) refused(LAKHDZEVA_READ);
        if (!got) return all;
        all.length += (size_t)got;
    }
}

/* The input of an option: JSON in the words, standard input, or a file. */
static struct octets input(char letter, const char *otherwise) {
    const char *value = values[(unsigned char)letter] ? values[(unsigned char)letter] : otherwise;
    if (!value) return (struct octets){NULL, 0};
    if (*value == '{' && letter != 'I') return (struct octets){(uint8_t *)value, strlen(value)};
    if (!strcmp(value, "-")) return read_all(0);
    int file = open(value, O_RDONLY);
    if (file < 0) refused(LAKHDZEVA_READ);
    struct octets all = read_all(file);
    close(file);
    return all;
}

/* At most this many octets of the random input. */
static struct octets drawn(size_t most) {
    const char *value = values['R'] ? values['R'] : "/dev/urandom";
    int file = strcmp(value, "-") ? open(value, O_RDONLY) : 0;
    if (file < 0) refused(LAKHDZEVA_READ);
    struct octets all = {malloc(most), 0};
    for (ssize_t got = 1; got > 0 && all.length < most; all.length += (size_t)got) {
        got = read(file, all.start + all.length, most - all.length);
        if (got < 0) refused(LAKHDZEVA_READ);
    }
    return all;
}

/* Whether a word is UTF-8: words that are not are 1 Usage. */
static bool is_utf8(const uint8_t *word) {
    static const uint32_t least[] = {0, 0x80, 0x800, 0x10000};
    while (*word) {
        unsigned more = *word < 0x80 ? 0 : *word >= 0xf0 ? 3 : *word >= 0xe0 ? 2 : 1;
        if ((*word >= 0x80 && *word < 0xc0) || *word >= 0xf8) return false;
        uint32_t code = *word++ & (0x7fU >> (more ? more + 1 : 0));
        for (unsigned at = 0; at < more; at++) {
            if ((*word & 0xc0) != 0x80) return false;
            code = code << 6 | (*word++ & 0x3fU);
        }
        if (code < least[more] || code > 0x10ffff || (code >= 0xd800 && code < 0xe000)) return false;
    }
    return true;
}

/* Leaves words to the program that use a standard stream twice: those are 1 Usage. */
static void judge_streams(const char *inputs, const char *outputs, const char *standard) {
    for (int side = 0; side < 2; side++) {
        int streams = 0;
        for (const char *letter = side ? outputs : inputs; *letter; letter++) {
            const char *value = values[(unsigned char)*letter];
            streams += value ? !strcmp(value, "-") : strchr(standard, *letter) != NULL;
        }
        if (streams > 1) leave_to_program();
    }
}

static void output(char letter, const char *otherwise, const struct place *place, mode_t mode) {
    const char *value = values[(unsigned char)letter] ? values[(unsigned char)letter] : otherwise;
    if (!value) return;
    int file = strcmp(value, "-") ? open(value, O_WRONLY | O_CREAT | O_TRUNC, mode) : 1;
    if (file < 0) refused(LAKHDZEVA_WRITE);
    for (size_t at = 0; at < place->length;) {
        ssize_t put = write(file, place->start + at, place->length - at);
        if (put <= 0) refused(LAKHDZEVA_WRITE);
        at += (size_t)put;
    }
}

/* ---- places */

static struct place place_of(size_t room) {
    size_t page = (size_t)sysconf(_SC_PAGESIZE), size = (room + BEFORE + page - 1) / page * page;
    uint8_t *memory = mmap(NULL, size + page, PROT_READ | PROT_WRITE, MAP_PRIVATE | MAP_ANONYMOUS, -1, 0);
    if (memory == MAP_FAILED || mprotect(memory + size, page, PROT_NONE)) refused(LAKHDZEVA_MEMORY);
    memset(memory, FILLED, size);
    return (struct place){memory, memory + size - room, size, room, 12345};
}

static void release(struct place *place) {
    munmap(place->memory, place->size + (size_t)sysconf(_SC_PAGESIZE));
}

/* Ends the run if the octets before the place changed, or those behind an answer of this length. */
static void compare(const struct place *place, size_t length) {
    for (const uint8_t *at = place->memory; at < place->memory + place->size; at++)
        if (*at != FILLED && (at < place->start || at >= place->start + length)) broken("octets outside of an answer changed");
}

/* ---- calls */

static struct octets text, content, keys, random_octets;
static bool has_content;
static unsigned flags, bits;

typedef uint32_t call(struct place *one, struct place *other);

static uint32_t generate(struct place *one, struct place *other) {
    (void)other;
    return lakhdzeva_generate_with_random(text.start, text.length, random_octets.start, random_octets.length, one->start, one->room, &one->length);
}

static uint32_t thumbprints(struct place *one, struct place *other) {
    (void)other;
    return lakhdzeva_thumbprints(text.start, text.length, bits, one->start, one->room, &one->length);
}

static uint32_t sign(struct place *one, struct place *other) {
    (void)other;
    return lakhdzeva_sign(keys.start, keys.length, text.start, text.length, flags, content.start, content.length, one->start, one->room, &one->length);
}

static uint32_t verify(struct place *one, struct place *other) {
    (void)other;
    if (!has_content) return lakhdzeva_verify(keys.start, keys.length, text.start, text.length, flags, one->start, one->room, &one->length);
    uint32_t status = lakhdzeva_verify_detached(keys.start, keys.length, text.start, text.length, flags, content.start, content.length);
    one->length = status ? 0 : content.length;
    if (!status && one->room < content.length) return LAKHDZEVA_WRITE;
    if (!status && content.length) memcpy(one->start, content.start, content.length);
    return status;
}

static uint32_t encrypt(struct place *one, struct place *other) {
    return lakhdzeva_encrypt_with_random(keys.start, keys.length, text.start, text.length, flags, random_octets.start, random_octets.length,
        content.start, content.length, one->start, one->room, &one->length, other->start, other->room, &other->length);
}

static uint32_t decrypt(struct place *one, struct place *other) {
    (void)other;
    /* The program makes as many iterations as a call may make at most. */
    return lakhdzeva_decrypt(keys.start, keys.length, text.start, text.length, has_content ? content.start : NULL, content.length, UINT64_MAX, one->start,
        one->room, &one->length);
}

static uint32_t format_signed(struct place *one, struct place *other) {
    return lakhdzeva_format_signed(text.start, text.length, has_content ? content.start : NULL, content.length, flags, one->start, one->room,
        &one->length, other->start, other->room, &other->length);
}

static uint32_t format_encrypted(struct place *one, struct place *other) {
    return lakhdzeva_format_encrypted(text.start, text.length, has_content ? content.start : NULL, content.length, flags, one->start, one->room,
        &one->length, other->start, other->room, &other->length);
}

/* Makes the call with these rooms. Unless it succeeds, its places are as they were. */
static uint32_t tried(call *made, struct place *one, struct place *other, size_t room, size_t other_room) {
    *one = place_of(room);
    *other = place_of(other_room);
    uint32_t status = made(one, other);
    compare(one, status ? 0 : one->length);
    compare(other, status || other->length == 12345 ? 0 : other->length);
    if (status && status != LAKHDZEVA_WRITE && one->length) broken("a length after a refusal");
    return status;
}

/* Makes the call with the rooms of the header, then with rooms that are too small by one octet, and last with rooms that fit. */
static void make(call *made, struct place *one, struct place *other, size_t room, size_t other_room) {
    /* A room of this size is not tried: the call says what it needs. It is less than the room. */
    if (room > LARGE) {
        uint32_t status = tried(made, one, other, 0, other_room);
        if (status && status != LAKHDZEVA_WRITE) refused(status);
        if (one->length > room) broken("a room of the header does not suffice");
        room = one->length;
        release(one);
        release(other);
    }
    uint32_t status = tried(made, one, other, room, other_room);
    if (status == LAKHDZEVA_WRITE) broken("a room of the header does not suffice");
    if (status) refused(status);
    size_t length = one->length, other_length = other->length == 12345 ? 0 : other->length;
    struct place small, beside;
    if (length && (tried(made, &small, &beside, length - 1, other_length) != LAKHDZEVA_WRITE || small.length != length))
        broken("a place that is too small by one octet");
    if (length) {
        release(&small);
        release(&beside);
    }
    if (other_length && (tried(made, &small, &beside, length, other_length - 1) != LAKHDZEVA_WRITE || beside.length != other_length))
        broken("a second place that is too small by one octet");
    if (other_length) {
        release(&small);
        release(&beside);
    }
    if (tried(made, &small, &beside, length, other_length) || small.length != length || (length && memcmp(small.start, one->start, length))
        || (other_length && memcmp(beside.start, other->start, other_length)))
        broken("a place that fits");
}

int main(int count, char **given) {
    words = given;
    if (count < 3) leave_to_program();
    for (int at = 1; at < count; at++)
        if (!is_utf8((const uint8_t *)words[at])) leave_to_program();
    char command[16];
    snprintf(command, sizeof command, "%s %s", words[1], words[2]);
    const char *letters = "";
    for (size_t at = 0; at < sizeof COMMANDS / sizeof *COMMANDS; at++)
        if (!strcmp(command, COMMANDS[at][0])) letters = COMMANDS[at][1];
    for (int at = 3; at < count; at++) {
        const char *word = words[at];
        if (word[0] != '-' || !word[1] || word[2] || !strchr(letters, word[1]) || values[(unsigned char)word[1]]) leave_to_program();
        bool is_flag = word[1] == 'c' || (word[1] == 'a' && strcmp(command, "jwk thp"));
        if (!is_flag && (at + 1 == count || (*words[at + 1] == '-' && words[at + 1][1]))) leave_to_program();
        values[(unsigned char)word[1]] = is_flag ? "yes" : words[++at];
    }
    struct place one = {0}, other = {0};
    flags = (values['c'] ? LAKHDZEVA_COMPACT : 0U);
    has_content = values['I'] != NULL;
    if (!strcmp(command, "jwk gen") && values['i']) {
        judge_streams("iR", "o", "o");
        text = input('i', NULL);
        random_octets = drawn(4096);
        make(generate, &one, &other, lakhdzeva_generate_room(text.length), 0);
        output('o', "-", &one, 0600);
    } else if (!strcmp(command, "jwk thp")) {
        const char *names[] = {"S224", "S256", "S384", "S512"};
        bits = values['a'] ? 0 : 256;
        for (unsigned at = 0; values['a'] && at < 4; at++)
            if (!strcmp(values['a'], names[at])) bits = (unsigned)atoi(names[at] + 1);
        if (!bits) leave_to_program();
        text = input('i', "-");
        make(thumbprints, &one, &other, lakhdzeva_thumbprints_room(text.length), 0);
        output('o', "-", &one, 0666);
    } else if (!strcmp(command, "jws sig") && values['k']) {
        judge_streams("skI", "oO", "Io");
        text = input('s', "{}");
        keys = input('k', NULL);
        content = input('I', "-");
        flags |= values['O'] ? LAKHDZEVA_DETACH : 0U;
        make(sign, &one, &other, lakhdzeva_sign_room(keys.length, text.length, content.length), 0);
        if (values['O']) {
            other = place_of(content.length);
            memcpy(other.start, content.start, content.length);
            other.length = content.length;
            output('O', NULL, &other, 0666);
        }
        output('o', "-", &one, 0666);
    } else if (!strcmp(command, "jws ver") && values['k']) {
        judge_streams("iIk", "O", "i");
        text = input('i', "-");
        keys = input('k', NULL);
        content = input('I', NULL);
        flags = values['a'] ? LAKHDZEVA_ALL : 0U;
        make(verify, &one, &other, has_content ? content.length : lakhdzeva_verify_room(text.length), 0);
        output('O', NULL, &one, 0666);
    } else if (!strcmp(command, "jwe enc") && values['k']) {
        judge_streams("ikIR", "oO", "Io");
        text = input('i', "{}");
        keys = input('k', NULL);
        /* A content encryption key, an initialization vector and 64 salts: no object needs more octets. */
        random_octets = drawn(64 + 16 + 64 * 16);
        content = input('I', "-");
        flags |= values['O'] ? LAKHDZEVA_DETACH : 0U;
        make(encrypt, &one, &other, lakhdzeva_encrypt_room(keys.length, text.length, content.length), values['O'] ? lakhdzeva_ciphertext_room(content.length) : 0);
        output('O', NULL, &other, 0666);
        output('o', "-", &one, 0666);
    } else if (!strcmp(command, "jwe dec") && values['k']) {
        judge_streams("iIk", "O", "iO");
        text = input('i', "-");
        keys = input('k', NULL);
        content = input('I', NULL);
        make(decrypt, &one, &other, lakhdzeva_decrypt_room(text.length, content.length), 0);
        output('O', "-", &one, 0600);
    } else if (!strcmp(command, "jws fmt") || !strcmp(command, "jwe fmt")) {
        judge_streams("iI", "oO", "io");
        text = input('i', "-");
        content = input('I', NULL);
        flags |= values['O'] ? LAKHDZEVA_DETACH : 0U;
        make(command[2] == 's' ? format_signed : format_encrypted, &one, &other, lakhdzeva_format_room(text.length, content.length),
            values['O'] ? lakhdzeva_content_room(text.length, content.length) : 0);
        output('O', NULL, &other, 0666);
        output('o', "-", &one, 0666);
    } else {
        leave_to_program();
    }
    return 0;
}
