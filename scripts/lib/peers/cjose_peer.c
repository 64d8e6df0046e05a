/* Makes the calls of scripts/interop to cjose. Each line of standard input is a JSON request, and each line of standard output is a JSON
   answer. */
#include <cjose/cjose.h>
#include <jansson.h>
#include <stdio.h>
#include <stdlib.h>
#include <string.h>

static cjose_err err;

static const char *text_at(const json_t *ask, const char *name) {
    return json_string_value(json_object_get(ask, name));
}

static const char *first_at(const json_t *ask, const char *name) {
    return json_string_value(json_array_get(json_object_get(ask, name), 0));
}

static cjose_jwk_t *key_of(const char *k) {
    uint8_t *octets = NULL;
    size_t length = 0;
    if (!cjose_base64url_decode(k, strlen(k), &octets, &length, &err)) return NULL;
    return cjose_jwk_create_oct_spec(octets, length, &err);
}

static cjose_header_t *header_of(const json_t *ask) {
    cjose_header_t *header = cjose_header_new(&err);
    const char *enc = text_at(ask, "enc");
    if (header && !cjose_header_set(header, CJOSE_HDR_ALG, first_at(ask, "algs"), &err)) return NULL;
    if (header && enc && !cjose_header_set(header, CJOSE_HDR_ENC, enc, &err)) return NULL;
    return header;
}

static char *sign(const json_t *ask) {
    const char *payload = text_at(ask, "payload"), *text = NULL;
    uint8_t *octets = NULL;
    size_t length = 0;
    cjose_jwk_t *key = key_of(first_at(ask, "keys"));
    cjose_header_t *header = header_of(ask);
    if (!key || !header || !cjose_base64url_decode(payload, strlen(payload), &octets, &length, &err)) return NULL;
    cjose_jws_t *jws = cjose_jws_sign(key, header, octets, length, &err);
    return jws && cjose_jws_export(jws, &text, &err) ? strdup(text) : NULL;
}

static char *text_of(const uint8_t *octets, size_t length) {
    char *text = NULL;
    size_t size = 0;
    return octets && cjose_base64url_encode(octets, length, &text, &size, &err) ? text : NULL;
}

static char *verify(const json_t *ask) {
    const char *text = text_at(ask, "text");
    uint8_t *octets = NULL;
    size_t length = 0;
    cjose_jwk_t *key = key_of(text_at(ask, "key"));
    cjose_jws_t *jws = cjose_jws_import(text, strlen(text), &err);
    if (!key || !jws || !cjose_jws_verify(jws, key, &err)) return NULL;
    return cjose_jws_get_plaintext(jws, &octets, &length, &err) ? text_of(octets, length) : NULL;
}

static char *encrypt(const json_t *ask) {
    const char *plaintext = text_at(ask, "plaintext");
    uint8_t *octets = NULL;
    size_t length = 0;
    cjose_jwk_t *key = key_of(first_at(ask, "keys"));
    cjose_header_t *header = header_of(ask);
    if (!key || !header || !cjose_base64url_decode(plaintext, strlen(plaintext), &octets, &length, &err)) return NULL;
    cjose_jwe_t *jwe = cjose_jwe_encrypt(key, header, octets, length, &err);
    if (!jwe) return NULL;
    return strcmp(text_at(ask, "form"), "compact") ? cjose_jwe_export_json(jwe, &err) : cjose_jwe_export(jwe, &err);
}

static char *decrypt(const json_t *ask) {
    const char *text = text_at(ask, "text");
    size_t length = 0;
    cjose_jwk_t *key = key_of(text_at(ask, "key"));
    cjose_jwe_t *jwe = *text == '{' ? cjose_jwe_import_json(text, strlen(text), &err) : cjose_jwe_import(text, strlen(text), &err);
    uint8_t *octets = key && jwe ? cjose_jwe_decrypt(jwe, key, &length, &err) : NULL;
    return text_of(octets, length);
}

int main(void) {
    static const struct {
        const char *name;
        char *(*call)(const json_t *);
    } calls[] = {{"sign", sign}, {"verify", verify}, {"encrypt", encrypt}, {"decrypt", decrypt}};
    char *line = NULL;
    size_t room = 0;
    while (getline(&line, &room, stdin) > 0) {
        json_t *ask = json_loads(line, 0, NULL);
        char *answer = NULL;
        memset(&err, 0, sizeof err);
        for (size_t at = 0; ask && at < sizeof calls / sizeof *calls; at++)
            if (!strcmp(text_at(ask, "do"), calls[at].name)) answer = calls[at].call(ask);
        json_t *out = answer ? json_pack("{ss}", "ok", answer) : json_pack("{ss}", "refused", err.message ? err.message : "no answer");
        puts(json_dumps(out, JSON_COMPACT));
        fflush(stdout);
        free(answer);
        json_decref(ask);
        json_decref(out);
    }
    return 0;
}
