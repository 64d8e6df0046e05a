/* Calls the library from Node.js, by Node-API, which is the same in every version of Node since 10:

     cc -O2 -shared -fPIC -I/usr/include/node lakhdzeva.c -o lakhdzeva.node $(pkg-config --cflags --libs lakhdzeva)

   Each text is a Buffer. Each answer is a new Buffer, but for that of judgeKeys and of verifySigner. A refusal is thrown as an Error with the
   message "17 NotOpened", say, and with the members `code`, such as "NotOpened", and `number`.

   The library gets copies of the texts, which are wiped. Another thread can change a Buffer over a SharedArrayBuffer during a call, and a text that
   changes while it is verified could be accepted, although nobody signed it. */
#include <lakhdzeva.h>
#include <node_api.h>
#include <stdio.h>
#include <stdlib.h>
#include <string.h>

struct text {
    void *octets;
    size_t length;
};

/* Wipes the copies of texts and frees them. A text without octets has no copy. */
static void free_texts(struct text *texts, size_t count) {
    for (size_t i = 0; i < count; i++) {
        if (!texts[i].length) continue;
        memset(texts[i].octets, 0, texts[i].length);
        __asm__ volatile("" : : "r"(texts[i].octets) : "memory"); /* No compiler leaves the memset out. */
        free(texts[i].octets);
    }
}

/* The answer as a Buffer, or NULL after a refusal, which is thrown. The memory is freed. */
static napi_value answer(napi_env env, enum lakhdzeva_status status, void *place, size_t length) {
    napi_value result = NULL, number, code, message, error;
    if (!place) status = LAKHDZEVA_MEMORY;
    const char *name = lakhdzeva_name(status);
    char text[32];
    snprintf(text, sizeof text, "%d %s", (int)status, name);
    if (!status) napi_create_buffer_copy(env, length, place, NULL, &result);
    else if (napi_create_uint32(env, status, &number) == napi_ok && napi_create_string_utf8(env, name, NAPI_AUTO_LENGTH, &code) == napi_ok
        && napi_create_string_utf8(env, text, NAPI_AUTO_LENGTH, &message) == napi_ok && napi_create_error(env, code, message, &error) == napi_ok
        && napi_set_named_property(env, error, "number", number) == napi_ok)
        napi_throw(env, error);
    free(place);
    return result;
}

/* Copies as many Buffers as there are texts. Throws and returns 0 if the arguments are others, or if there is no memory. */
static int read_texts(napi_env env, napi_callback_info info, size_t count, struct text *texts) {
    napi_value given[4];
    size_t found = 4;
    bool fits = napi_get_cb_info(env, info, &found, given, NULL, NULL) == napi_ok && found == count;
    for (size_t i = 0; fits && i < count; i++)
        fits = napi_is_buffer(env, given[i], &fits) == napi_ok && fits && napi_get_buffer_info(env, given[i], &texts[i].octets, &texts[i].length) == napi_ok;
    if (!fits) return napi_throw_type_error(env, "ERR_INVALID_ARG_TYPE", "each argument must be a Buffer"), 0;
    for (size_t i = 0; i < count; i++) {
        void *copy = texts[i].length ? malloc(texts[i].length) : texts[i].octets;
        if (texts[i].length && !copy) return free_texts(texts, i), answer(env, LAKHDZEVA_MEMORY, NULL, 0), 0;
        if (texts[i].length) memcpy(copy, texts[i].octets, texts[i].length);
        texts[i].octets = copy;
    }
    return 1;
}

static napi_value thumbprints(napi_env env, napi_callback_info info) {
    struct text keys;
    if (!read_texts(env, info, 1, &keys)) return NULL;
    size_t room = lakhdzeva_thumbprints_room(keys.length), length = 0;
    void *place = malloc(room);
    enum lakhdzeva_status status = LAKHDZEVA_MEMORY;
    if (place) status = lakhdzeva_thumbprints(keys.octets, keys.length, 256, place, room, &length);
    free_texts(&keys, 1);
    return answer(env, status, place, length);
}

static napi_value sign(napi_env env, napi_callback_info info) {
    struct text of[3]; /* keys, template, payload */
    if (!read_texts(env, info, 3, of)) return NULL;
    size_t room = lakhdzeva_sign_room(of[0].length, of[1].length, of[2].length), length = 0;
    void *place = malloc(room);
    enum lakhdzeva_status status = LAKHDZEVA_MEMORY;
    if (place)
        status = lakhdzeva_sign(of[0].octets, of[0].length, of[1].octets, of[1].length, LAKHDZEVA_COMPACT, of[2].octets, of[2].length, place, room, &length);
    free_texts(of, 3);
    return answer(env, status, place, length);
}

static napi_value verify(napi_env env, napi_callback_info info) {
    struct text of[2]; /* keys, token */
    if (!read_texts(env, info, 2, of)) return NULL;
    size_t room = lakhdzeva_verify_room(of[1].length), length = 0;
    void *place = malloc(room + !room);
    enum lakhdzeva_status status = LAKHDZEVA_MEMORY;
    if (place) status = lakhdzeva_verify(of[0].octets, of[0].length, of[1].octets, of[1].length, 0, place, room, &length);
    free_texts(of, 2);
    return answer(env, status, place, length);
}

/* Gives an object with the payload, and with the position in the set of the key that signed: {payload, signer}. */
static napi_value verify_signer(napi_env env, napi_callback_info info) {
    struct text of[2]; /* keys, token */
    if (!read_texts(env, info, 2, of)) return NULL;
    size_t room = lakhdzeva_verify_room(of[1].length), length = 0, at = 0;
    void *place = malloc(room + !room);
    enum lakhdzeva_status status = LAKHDZEVA_MEMORY;
    if (place) status = lakhdzeva_verify_signer(of[0].octets, of[0].length, of[1].octets, of[1].length, place, room, &length, &at);
    free_texts(of, 2);
    napi_value payload = answer(env, status, place, length), signer, result;
    if (!payload || napi_create_object(env, &result) != napi_ok || napi_create_uint32(env, (uint32_t)at, &signer) != napi_ok
        || napi_set_named_property(env, result, "payload", payload) != napi_ok || napi_set_named_property(env, result, "signer", signer) != napi_ok)
        return NULL;
    return result;
}

/* Gives a Buffer of one byte for each member of the set: the sum of enum lakhdzeva_uses that hold, such as 2 for a key that may verify. */
static napi_value judge_keys(napi_env env, napi_callback_info info) {
    struct text keys;
    if (!read_texts(env, info, 1, &keys)) return NULL;
    size_t room = lakhdzeva_judge_keys_room(keys.length), length = 0;
    void *place = malloc(room + !room);
    enum lakhdzeva_status status = LAKHDZEVA_MEMORY;
    if (place) status = lakhdzeva_judge_keys(keys.octets, keys.length, place, room, &length);
    free_texts(&keys, 1);
    return answer(env, status, place, length);
}

static napi_value decrypt(napi_env env, napi_callback_info info) {
    struct text of[2]; /* keys, token */
    if (!read_texts(env, info, 2, of)) return NULL;
    size_t room = lakhdzeva_decrypt_room(of[1].length, 0), length = 0;
    void *place = malloc(room + !room);
    enum lakhdzeva_status status = LAKHDZEVA_MEMORY;
    if (place) status = lakhdzeva_decrypt(of[0].octets, of[0].length, of[1].octets, of[1].length, NULL, 0, 0, place, room, &length);
    free_texts(of, 2);
    return answer(env, status, place, length);
}

NAPI_MODULE_INIT() {
    const struct {
        const char *name;
        napi_callback function;
    } all[] = {{"judgeKeys", judge_keys}, {"thumbprints", thumbprints}, {"sign", sign}, {"verify", verify}, {"verifySigner", verify_signer}, {"decrypt", decrypt}};
    for (size_t i = 0; i < sizeof all / sizeof *all; i++) {
        napi_value function;
        if (napi_create_function(env, all[i].name, NAPI_AUTO_LENGTH, all[i].function, NULL, &function) != napi_ok
            || napi_set_named_property(env, exports, all[i].name, function) != napi_ok)
            return NULL;
    }
    return exports;
}
