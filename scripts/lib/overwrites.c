/* Functions of lakhdzeva.h that are put before those of the library by LD_PRELOAD. Each makes the call, and then overwrites every text that it
   got. So a caller that hands over memory which is not its own, such as that of a SharedArrayBuffer, finds it changed: what another thread can
   change during a call, the library would have read more than once. */
#include <dlfcn.h>
#include <lakhdzeva.h>
#include <string.h>

/* The function of the library with this name. The library may be loaded for one module alone, where RTLD_NEXT does not look. */
#define OWN(name) \
    __typeof__(name) *own; \
    *(void **)&own = dlsym(dlopen("liblakhdzeva.so.3", RTLD_LAZY), #name)

static void overwrite(const void *text, size_t length) {
    if (length) memset((void *)(size_t)text, '#', length);
}

typedef enum lakhdzeva_status status;

status lakhdzeva_thumbprints(const void *keys, size_t keys_length, unsigned bits, void *lines, size_t room, size_t *length) {
    OWN(lakhdzeva_thumbprints);
    status result = own(keys, keys_length, bits, lines, room, length);
    return overwrite(keys, keys_length), result;
}

status lakhdzeva_judge_keys(const void *keys, size_t keys_length, void *uses, size_t room, size_t *length) {
    OWN(lakhdzeva_judge_keys);
    status result = own(keys, keys_length, uses, room, length);
    return overwrite(keys, keys_length), result;
}

status lakhdzeva_sign(const void *keys, size_t keys_length, const void *template_text, size_t template_length, unsigned flags, const void *payload,
    size_t payload_length, void *object, size_t room, size_t *length) {
    OWN(lakhdzeva_sign);
    status result = own(keys, keys_length, template_text, template_length, flags, payload, payload_length, object, room, length);
    return overwrite(keys, keys_length), overwrite(template_text, template_length), overwrite(payload, payload_length), result;
}

status lakhdzeva_verify(const void *keys, size_t keys_length, const void *object, size_t object_length, unsigned flags, void *payload, size_t room,
    size_t *length) {
    OWN(lakhdzeva_verify);
    status result = own(keys, keys_length, object, object_length, flags, payload, room, length);
    return overwrite(keys, keys_length), overwrite(object, object_length), result;
}

status lakhdzeva_verify_signer(const void *keys, size_t keys_length, const void *object, size_t object_length, void *payload, size_t room,
    size_t *length, size_t *signer) {
    OWN(lakhdzeva_verify_signer);
    status result = own(keys, keys_length, object, object_length, payload, room, length, signer);
    return overwrite(keys, keys_length), overwrite(object, object_length), result;
}

status lakhdzeva_decrypt(const void *keys, size_t keys_length, const void *object, size_t object_length, const void *ciphertext,
    size_t ciphertext_length, uint64_t iterations, void *plaintext, size_t room, size_t *length) {
    OWN(lakhdzeva_decrypt);
    status result = own(keys, keys_length, object, object_length, ciphertext, ciphertext_length, iterations, plaintext, room, length);
    return overwrite(keys, keys_length), overwrite(object, object_length), overwrite(ciphertext, ciphertext_length), result;
}
