/* Opens an encrypted secret at boot, and writes it to standard output only if it is the one that was encrypted:

     cc -O2 open-secret.c -o open-secret $(pkg-config --cflags --libs lakhdzeva)
     ./open-secret KEYFILE OBJECT | cryptsetup open --key-file - /dev/vda2 root */
#include <lakhdzeva.h>
#include <stdio.h>
#include <stdlib.h>

struct text {
    char octets[65536];
    size_t length;
};

static struct text keys, object, secret;

static void read_text(const char *name, struct text *text) {
    FILE *file = fopen(name, "rb");
    if (file) text->length = fread(text->octets, 1, sizeof text->octets, file);
    if (!file || ferror(file) || !feof(file)) {
        fprintf(stderr, "open-secret: %s cannot be read, or is too long\n", name);
        exit(1);
    }
    fclose(file);
}

int main(int count, char **words) {
    if (count != 3) return fprintf(stderr, "usage: open-secret KEYFILE OBJECT\n"), 2;
    read_text(words[1], &keys);
    read_text(words[2], &object);
    /* The secret is encrypted to a key, so no password is tried. An object that asks for one is 15 Limit. */
    uint32_t status = lakhdzeva_decrypt(keys.octets, keys.length, object.octets, object.length, NULL, 0, 0, secret.octets, sizeof secret.octets,
        &secret.length);
    if (status) return fprintf(stderr, "open-secret: %u %s\n", status, lakhdzeva_name(status)), 1;
    return fwrite(secret.octets, 1, secret.length, stdout) != secret.length || fflush(stdout) != 0;
}
