/* Encrypts a file and keeps its ciphertext apart from the object: in a bucket, a column or a file of its own. Then it decrypts both.

     cc -O2 detached.c -o detached $(pkg-config --cflags --libs lakhdzeva)
     ./detached encrypt KEYFILE FILE OBJECT CIPHERTEXT
     ./detached decrypt KEYFILE FILE OBJECT CIPHERTEXT

   The object has everything but the ciphertext: the headers, the encrypted key, the initialization vector and the tag. */
#define _POSIX_C_SOURCE 200809L
#include <fcntl.h>
#include <lakhdzeva.h>
#include <stdio.h>
#include <stdlib.h>
#include <string.h>
#include <unistd.h>

struct text {
    char *octets;
    size_t length;
};

static void stop(const char *what, const char *why) {
    fprintf(stderr, "detached: %s: %s\n", what, why);
    exit(1);
}

/* Memory for so many octets. A room is SIZE_MAX if no length suffices. */
static struct text place(size_t room) {
    struct text text = {malloc(room ? room : 1), 0};
    if (!text.octets) stop("memory", "there is not enough");
    return text;
}

static struct text read_text(const char *name) {
    FILE *file = fopen(name, "rb");
    struct text text = place(1 << 16);
    size_t room = 1 << 16, got;
    if (!file) stop(name, "it cannot be read");
    while ((got = fread(text.octets + text.length, 1, room - text.length, file)) > 0)
        if ((text.length += got) == room && !(text.octets = realloc(text.octets, room *= 2))) stop(name, "it is too long");
    if (ferror(file)) stop(name, "it cannot be read");
    fclose(file);
    return text;
}

/* Writes a new file with this mode. O_EXCL: it overwrites nothing, and writes through no link. */
static void write_text(const char *name, const struct text *text, mode_t mode) {
    int number = open(name, O_WRONLY | O_CREAT | O_EXCL | O_CLOEXEC, mode);
    FILE *file = number < 0 ? NULL : fdopen(number, "wb");
    if (!file || fwrite(text->octets, 1, text->length, file) != text->length || fclose(file)) stop(name, "it is there, or cannot be written");
}

int main(int count, char **words) {
    if (count != 6) return fprintf(stderr, "usage: detached encrypt|decrypt KEYFILE FILE OBJECT CIPHERTEXT\n"), 2;
    struct text keys = read_text(words[2]);
    uint32_t status;
    if (!strcmp(words[1], "encrypt")) {
        struct text file = read_text(words[3]);
        /* The template {} lets the key decide. The object gets no ciphertext, so its room needs none. */
        size_t room = lakhdzeva_encrypt_room(keys.length, 0, 0), ciphertext_room = lakhdzeva_ciphertext_room(file.length);
        struct text object = place(room), ciphertext = place(ciphertext_room);
        status = lakhdzeva_encrypt(keys.octets, keys.length, /* template */ NULL, 0, LAKHDZEVA_DETACH, file.octets, file.length, object.octets, room,
            &object.length, ciphertext.octets, ciphertext_room, &ciphertext.length);
        if (status) stop(words[3], lakhdzeva_name(status));
        write_text(words[5], &ciphertext, 0666);
        write_text(words[4], &object, 0666);
    } else {
        struct text object = read_text(words[4]), ciphertext = read_text(words[5]);
        size_t room = lakhdzeva_decrypt_room(object.length, ciphertext.length);
        struct text file = place(room);
        status = lakhdzeva_decrypt(keys.octets, keys.length, object.octets, object.length, ciphertext.octets, ciphertext.length, /* iterations */ 0,
            file.octets, room, &file.length);
        if (status) stop(words[4], lakhdzeva_name(status));
        write_text(words[3], &file, 0600); /* Nobody else reads the plaintext, whatever the umask is. */
    }
    return 0;
}
