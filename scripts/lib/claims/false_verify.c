/* A lakhdzeva_verify that is put before that of the library: it refuses a token such as FAULT.FAULT.00009 with its number. It comes before that of
   the shared library by LD_PRELOAD, and with WRAPPED before that of the archive by the linker's --wrap. */
#define _GNU_SOURCE
#include <dlfcn.h>
#include <lakhdzeva.h>
#include <string.h>

typedef enum lakhdzeva_status verify(const void *, size_t, const void *, size_t, unsigned, void *, size_t, size_t *);

#ifdef WRAPPED
verify __real_lakhdzeva_verify, __wrap_lakhdzeva_verify;
#define lakhdzeva_verify __wrap_lakhdzeva_verify
#endif

enum lakhdzeva_status lakhdzeva_verify(const void *keys, size_t keys_length, const void *object, size_t object_length, unsigned flags, void *payload,
    size_t room, size_t *length) {
#ifdef WRAPPED
    verify *own = __real_lakhdzeva_verify;
#else
    verify *own;
    *(void **)&own = dlsym(RTLD_NEXT, "lakhdzeva_verify");
    /* Node loads the library for its module alone. */
    if (!own) *(void **)&own = dlsym(dlopen("liblakhdzeva.so.3", RTLD_NOW), "lakhdzeva_verify");
#endif
    if (object_length == 17 && !memcmp(object, "FAULT.FAULT.", 12)) {
        const char *digits = (const char *)object + 15;
        return (enum lakhdzeva_status)((digits[0] - '0') * 10 + (digits[1] - '0'));
    }
    return own(keys, keys_length, object, object_length, flags, payload, room, length);
}
