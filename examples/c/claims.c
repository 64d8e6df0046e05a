#include "claims.h"

#include <lakhdzeva.h>
#include <math.h>
#include <stdbool.h>
#include <stdlib.h>
#include <string.h>
#include <strings.h>

/* Integers are read as double too: otherwise one of more than 64 bits would be no JSON. Of a repeated name the last member counts. */
static json_t *object_of(const char *text, size_t length) {
    json_t *object = json_loadb(text, length, JSON_DECODE_INT_AS_REAL | JSON_ALLOW_NUL, NULL);
    if (json_is_object(object)) return object;
    json_decref(object);
    return NULL;
}

/* Reads the protected header, the first part of the token. The library decodes it, as the payload of an object that nobody signed. */
static json_t *header_of(const char *token, size_t length) {
    static const char before[] = "eyJhbGciOiJIUzI1NiJ9.", behind[] = ".AAAA";
    size_t size = sizeof before - 1 + length + sizeof behind - 1, object_length = 0, header_length = 0;
    char *object = malloc(size), *written = malloc(2 * size + 128), *octets = malloc(size);
    json_t *header = NULL;
    if (object && written && octets) {
        memcpy(object, before, sizeof before - 1);
        memcpy(object + sizeof before - 1, token, length);
        memcpy(object + sizeof before - 1 + length, behind, sizeof behind - 1);
        if (!lakhdzeva_format_signed(object, size, NULL, 0, LAKHDZEVA_DETACH, written, 2 * size + 128, &object_length, octets, size, &header_length))
            header = object_of(octets, header_length);
    }
    free(object), free(written), free(octets);
    return header;
}

/* Whether the value is this text. A text of JSON can have a zero octet in it. */
static bool is_text(const json_t *value, const char *text) {
    return json_is_string(value) && json_string_length(value) == strlen(text) && !memcmp(json_string_value(value), text, strlen(text));
}

/* A media type without its usual beginning. */
static const char *media_type(const char *type) {
    return strncasecmp(type, "application/", 12) ? type : type + 12;
}

static bool is_type(const json_t *value, const char *type) {
    return json_is_string(value) && strlen(json_string_value(value)) == json_string_length(value)
        && !strcasecmp(media_type(json_string_value(value)), media_type(type));
}

static bool is_compact(const char *token, size_t length) {
    size_t parts = 1, in_part = 0;
    for (size_t i = 0; i < length; i++) {
        bool digit = memchr("ABCDEFGHIJKLMNOPQRSTUVWXYZabcdefghijklmnopqrstuvwxyz0123456789-_", token[i], 64);
        if (!digit && (token[i] != '.' || !in_part)) return false;
        parts += !digit;
        in_part = digit ? in_part + 1 : 0;
    }
    return parts == 3 && in_part;
}

/* Whether `aud` is this audience, or a list of texts with it. */
static bool is_audience(const json_t *aud, const char *audience) {
    if (!json_is_array(aud)) return is_text(aud, audience);
    bool found = false;
    for (size_t i = 0; i < json_array_size(aud); i++) {
        if (!json_is_string(json_array_get(aud, i))) return false;
        found = found || is_text(json_array_get(aud, i), audience);
    }
    return found;
}

static const char *wrong_claim(const json_t *claims, const struct expected *expected, double now) {
    const json_t *exp = json_object_get(claims, "exp"), *nbf = json_object_get(claims, "nbf"), *aud = json_object_get(claims, "aud");
    if (!json_is_real(exp) || now - expected->leeway >= json_real_value(exp)) return "exp";
    if (nbf && (!json_is_real(nbf) || now + expected->leeway < json_real_value(nbf))) return "nbf";
    if (expected->issuer && !is_text(json_object_get(claims, "iss"), expected->issuer)) return "iss";
    if (expected->audience ? !is_audience(aud, expected->audience) : aud != NULL) return "aud";
    return NULL;
}

/* Whether a token can be what the caller expects. An empty text comes of a setting that is missing, and must not mean that nothing is expected. */
static bool is_expectation(const struct expected *expected, double now) {
    if (expected->issuer && !*expected->issuer) return false;
    if (expected->audience && !*expected->audience) return false;
    if (expected->type && !*media_type(expected->type)) return false;
    return isfinite(now) && isfinite(expected->leeway) && expected->leeway >= 0;
}

const char *claims_of(const char *token, size_t token_length, const char *payload, size_t payload_length, const struct expected *expected, double now,
    json_t **claims) {
    *claims = NULL;
    if (!is_expectation(expected, now)) return "expected";
    if (!is_compact(token, token_length)) return "form";
    json_t *found = object_of(payload, payload_length);
    if (!found) return "claims";
    const char *wrong = NULL;
    if (expected->type) {
        json_t *header = header_of(token, (size_t)((const char *)memchr(token, '.', token_length) - token));
        if (!is_type(json_object_get(header, "typ"), expected->type)) wrong = "typ";
        json_decref(header);
    }
    if (!wrong) wrong = wrong_claim(found, expected, now);
    if (wrong) json_decref(found);
    else *claims = found;
    return wrong;
}
