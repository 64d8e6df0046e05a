/* lakhdzeva.h: sign and verify (JWS, RFC 7515; tokens as JWT), encrypt and decrypt (JWE, RFC 7516), make keys (JWK, RFC 7517) and their
   thumbprints (RFC 7638), with secrets that both sides share. For C99 and C++ on Linux. Link with -llakhdzeva. docs/C.md has examples, and
   docs/SERVICES.md is for web services.

   Everything is held in memory. No function keeps anything between calls, and any number of threads may call any of them at once.

   ---- Arguments

   Each argument is a pointer and a length in bytes, and needs no NUL at its end. NULL with length 0 is an empty text, with two exceptions. As
   `template_text` it is {}. As the content of `decrypt` and `format` it says that the content is inside the object. An empty detached content
   is any other pointer with length 0.
   - keys: the JSON text of one key, or of a set. To sign and to encrypt, every key of a set must be valid, and each is used. To verify and
     to decrypt, invalid keys of a set are skipped.
   - template_text: the JSON template: headers for a token, members for a key. {} lets the keys decide.
   - flags: LAKHDZEVA_COMPACT, LAKHDZEVA_DETACH and LAKHDZEVA_ALL, or 0.
   - each result goes to a buffer: a pointer, its size in bytes (`room`), and a pointer that receives the length of the result.

   ---- Results

   Every function returns LAKHDZEVA_OK, which is 0, or the number of an error.
   - 0: each buffer begins with the result, and its length says how many bytes that has. The bytes behind it are as they were.
   - 3 LAKHDZEVA_WRITE: a buffer is too small. Each length is the size that is needed, so a size of 0 asks for it. The functions with `_room`
     in their names make this call unnecessary: each returns a buffer size that is always enough.
   - Every other number: each length is 0. Only 1 LAKHDZEVA_USAGE for a pointer or a flag (below) writes nothing at all.
   Unless the result is 0, no buffer changes.

   ---- What to mind with every function

   - All keys are shared secrets: whoever can verify can also sign, and whoever can decrypt can also encrypt.
   - A key without `alg` is used for each algorithm that takes its length. So write `alg` and `key_ops` into each key.
   - The member `kid` never selects a key: each key that you pass is tried.
   - If a name is repeated in a JSON object, the last one counts.
   - A token takes up to 132 times its length in memory, and an object in JSON form up to 350 times. So limit the length of a stranger's text.
   - The library wipes the memory that it used. Your own is not wiped: the texts of keys, and the buffers of results.
   - The timing of reading a key's text depends on the key.

   ---- What you must guarantee

   - Each pointer leads to as many bytes as its length says, and no other thread changes these during the call.
   - Nothing that a call writes overlaps another argument, and no text has 2^63 bytes or more. A NULL with a length, an overlap, such a length,
     an unknown flag and a missing length are 1 LAKHDZEVA_USAGE, and nothing is written then, not even a length.
   - A call has 256 KiB of stack.
   - malloc and free belong to one allocator, whichever it is. The library calls no other function of it.
   - No call is made from a signal handler, or in the child of a process with threads before it runs another program.
   - Nothing jumps out of a call: no siglongjmp or longjmp from a signal handler, and no exception of C++ through it.
   - No thread is cancelled asynchronously in a call (PTHREAD_CANCEL_ASYNCHRONOUS).
   A call that is left half way keeps its memory, and can leave the heap broken for every thread. So nothing ends a call before it returns:
   limit the lengths and the iterations that you pass, or make the call in a process of its own, which can be killed. */
#ifndef LAKHDZEVA_H
#define LAKHDZEVA_H

#include <stddef.h>
#include <stdint.h>

#ifdef __GNUC__
#define LAKHDZEVA_STATUS_ __attribute__((__warn_unused_result__, __nothrow__))
#define LAKHDZEVA_ROOM_ __attribute__((__const__, __nothrow__))
#define LAKHDZEVA_TEXT_ __attribute__((__const__, __nothrow__, __returns_nonnull__))
#else
#define LAKHDZEVA_STATUS_
#define LAKHDZEVA_ROOM_
#define LAKHDZEVA_TEXT_
#endif

#ifdef __cplusplus
extern "C" {
#endif

enum lakhdzeva_status {
    LAKHDZEVA_OK = 0,
    LAKHDZEVA_USAGE = 1,           /* the arguments are not as above, or thumbprints by another hash */
    LAKHDZEVA_READ = 2,            /* never */
    LAKHDZEVA_WRITE = 3,           /* a buffer is too small */
    LAKHDZEVA_MEMORY = 4,          /* an allocation failed */
    LAKHDZEVA_RANDOM = 5,          /* the system gave no random bytes, or you passed too few */
    LAKHDZEVA_BASE64 = 6,          /* a text that must be base64url is not */
    LAKHDZEVA_JSON = 7,            /* a text that must be JSON is not */
    LAKHDZEVA_NUMBER = 8,          /* a JSON number has a fraction, an exponent or more than 64 bits, or is -0 */
    LAKHDZEVA_KEY = 9,             /* not a valid octet key, no such key in the set, or an invalid template for a key */
    LAKHDZEVA_FORM = 10,           /* members are missing, of the wrong type or not allowed together, or the number of parts is wrong */
    LAKHDZEVA_HEADER = 11,         /* a header member is missing or wrong */
    LAKHDZEVA_UNSUPPORTED = 12,    /* an algorithm, crit or zip that is not supported */
    LAKHDZEVA_NO_ALGORITHM = 13,   /* nothing names or implies the algorithm or the size */
    LAKHDZEVA_KEY_DOES_NOT_FIT = 14, /* the key's length, alg, use or key_ops does not fit */
    LAKHDZEVA_LIMIT = 15,          /* a limit is passed: keys, recipients, iterations, nesting */
    LAKHDZEVA_NOT_COMPACT = 16,    /* compact form cannot hold the object */
    LAKHDZEVA_NOT_OPENED = 17      /* no key verifies the object, or decrypts it */
};

enum lakhdzeva_flags {
    LAKHDZEVA_COMPACT = 1, /* write compact form, and otherwise JSON */
    LAKHDZEVA_DETACH = 2,  /* leave the payload or the ciphertext out of the object */
    LAKHDZEVA_ALL = 4      /* each valid key must verify, and otherwise one. It does not count signers: lakhdzeva_verify_all does */
};

enum lakhdzeva_uses {
    LAKHDZEVA_MAY_SIGN = 1,
    LAKHDZEVA_MAY_VERIFY = 2,
    LAKHDZEVA_MAY_ENCRYPT = 4,
    LAKHDZEVA_MAY_DECRYPT = 8,
    LAKHDZEVA_GOOD = 16
};

/* The name of a result, such as "NotOpened". */
const char *lakhdzeva_name(uint32_t status) LAKHDZEVA_TEXT_;

/* The version of the library that is loaded, such as "3.0.0". */
const char *lakhdzeva_version(void) LAKHDZEVA_TEXT_;

/* ---- Keys */

/* A buffer size that is always enough for a key by this template. */
size_t lakhdzeva_generate_room(size_t template_length) LAKHDZEVA_ROOM_;

/* Makes a key from random bytes that you pass. Two keys from the same bytes are equal: this is for tests. The rest is as for
   lakhdzeva_generate. */
enum lakhdzeva_status lakhdzeva_generate_with_random(const void *template_text, size_t template_length, const void *random, size_t random_length,
    void *key, size_t room, size_t *length) LAKHDZEVA_STATUS_;

/* Makes a key as the template asks, for example {"alg":"HS256"} or {"alg":"A256GCM","kid":"7"}. The result is its JSON text. */
enum lakhdzeva_status lakhdzeva_generate(const void *template_text, size_t template_length, void *key, size_t room, size_t *length) LAKHDZEVA_STATUS_;

/* A buffer size that is always enough for the thumbprints of the keys of a text. */
size_t lakhdzeva_thumbprints_room(size_t keys_length) LAKHDZEVA_ROOM_;

/* The thumbprints of the valid keys of a text, one a line, without a line feed after the last, by SHA-2 of 224, 256, 384 or 512 bits. That of a
   password is not safe to publish: it lets anyone test guesses. */
enum lakhdzeva_status lakhdzeva_thumbprints(const void *keys, size_t keys_length, unsigned bits, void *lines, size_t room, size_t *length)
    LAKHDZEVA_STATUS_;

/* A buffer size that is always enough for what the keys of a set may do. */
size_t lakhdzeva_judge_keys_room(size_t keys_length) LAKHDZEVA_ROOM_;

/* Says what each member of a text of keys may do, in order: one byte for each member of a set, and one for a key that is alone. It is 0 for a bad
   key, and otherwise the sum of LAKHDZEVA_GOOD and of the other enum lakhdzeva_uses that hold. A service calls it once, when it reads its keys: then
   keys that may do nothing, or other things than they are for, are seen before the first object comes. It is refused as the keys are refused by
   lakhdzeva_verify.
   - A service that verifies asks that each byte has LAKHDZEVA_MAY_VERIFY. LAKHDZEVA_GOOD is not enough: a key of 5 bytes for HS256 has it, and
     verifies nothing.
   - A key may do something if it may by some algorithm. Whether it fits an object shows when that comes.
   - Whoever has a key can do with it what it may not do: `use` and `key_ops` are rules for this library and others like it. */
enum lakhdzeva_status lakhdzeva_judge_keys(const void *keys, size_t keys_length, void *uses, size_t room, size_t *length) LAKHDZEVA_STATUS_;

/* ---- Signed objects */

/* A buffer size that is always enough for a signed object. Each signature has the headers of the template. */
size_t lakhdzeva_sign_room(size_t keys_length, size_t template_length, size_t payload_length) LAKHDZEVA_ROOM_;

/* Signs the payload with each of the keys. Flags: LAKHDZEVA_COMPACT, LAKHDZEVA_DETACH. The payload is in the object as it is, and not secret. In
   the template `protected` is signed, and `header` is a header that is not signed. */
enum lakhdzeva_status lakhdzeva_sign(const void *keys, size_t keys_length, const void *template_text, size_t template_length, unsigned flags,
    const void *payload, size_t payload_length, void *object, size_t room, size_t *length) LAKHDZEVA_STATUS_;

/* A buffer size that is always enough for the payload of an object. */
size_t lakhdzeva_verify_room(size_t object_length) LAKHDZEVA_ROOM_;

/* Verifies the object, and gives its payload. Flags: LAKHDZEVA_ALL. The keys say whom you trust: never take them from the object.
   - With LAKHDZEVA_ALL each valid key must have made a signature. It skips invalid keys, and takes one signature for two keys that sign alike.
     So for a rule such as "Ann and Bob must both sign" call lakhdzeva_verify_all.
   - It checks no claims, such as `exp` of a JWT.
   - An old object verifies too, so put a number or a date into what you sign.
   - One token has many texts: to revoke it, list an id in its payload, and not its text.
   - In JSON form a header can be unsigned, or belong to a signature that none of your keys made: if a header matters, accept only compact form.
   - It computes an HMAC of the payload for each key, algorithm and protected header, at most 256 times 64: limit the length of what strangers
     send. */
enum lakhdzeva_status lakhdzeva_verify(const void *keys, size_t keys_length, const void *object, size_t object_length, unsigned flags, void *payload,
    size_t room, size_t *length) LAKHDZEVA_STATUS_;

/* Verifies the object with this payload, which is not in the object. Flags: LAKHDZEVA_ALL. The rest is as for lakhdzeva_verify. */
enum lakhdzeva_status lakhdzeva_verify_detached(const void *keys, size_t keys_length, const void *object, size_t object_length, unsigned flags,
    const void *payload, size_t payload_length) LAKHDZEVA_STATUS_;

/* Verifies the object, and gives its payload and which key verified it: the position in the set, from 0, of the first key that made a signature,
   or 0 for a key that is alone. It is for a service whose keys belong to different parties. An invalid key is refused as by lakhdzeva_sign, so the
   position counts every member of `keys`. Unless the result is 0 or 1, the position of the signer is 0.
   - Nobody but the owner of a key may know it: whoever has the bytes of a key can sign as its owner.
   - An object in JSON form can have signatures of several keys. This names the first key of the set that made one, and no other.
   The rest is as for lakhdzeva_verify. */
enum lakhdzeva_status lakhdzeva_verify_signer(const void *keys, size_t keys_length, const void *object, size_t object_length, void *payload,
    size_t room, size_t *length, size_t *signer) LAKHDZEVA_STATUS_;

/* Verifies that each key of the set signed the object, and gives its payload. The text has exactly `signers` keys.
   - Refusals, in this order: an invalid key is refused as by lakhdzeva_sign. Another number of keys is 9 LAKHDZEVA_KEY, and so are two keys that sign
     alike: HMAC fills a short key with zeros and hashes a long one (RFC 2104), so keys that differ can make the same signatures. Then come the
     refusals of the object, and 17 LAKHDZEVA_NOT_OPENED unless each key made a signature.
   - Use one call for one rule: two calls with two sets both succeed by one signature, if its key is in both sets.
   - It counts keys, not people: whoever has two keys signs for two. So let each person compare the thumbprint of his key.
   - The host that verifies has all keys, so it could sign as well.
   The rest is as for lakhdzeva_verify. */
enum lakhdzeva_status lakhdzeva_verify_all(const void *keys, size_t keys_length, size_t signers, const void *object, size_t object_length,
    void *payload, size_t room, size_t *length) LAKHDZEVA_STATUS_;

/* The same as lakhdzeva_verify_all with this payload, which is not in the object. */
enum lakhdzeva_status lakhdzeva_verify_all_detached(const void *keys, size_t keys_length, size_t signers, const void *object, size_t object_length,
    const void *payload, size_t payload_length) LAKHDZEVA_STATUS_;

/* ---- Encrypted objects */

/* A buffer size that is always enough for an encrypted object. It has the headers of the template once, and 256 bytes or less for a recipient. */
size_t lakhdzeva_encrypt_room(size_t keys_length, size_t template_length, size_t plaintext_length) LAKHDZEVA_ROOM_;

/* A buffer size that is always enough for a detached ciphertext. */
size_t lakhdzeva_ciphertext_room(size_t plaintext_length) LAKHDZEVA_ROOM_;

/* Encrypts with random bytes that you pass: for tests. Two objects with the same bytes reveal each other's secrets. The rest is as for
   lakhdzeva_encrypt. */
enum lakhdzeva_status lakhdzeva_encrypt_with_random(const void *keys, size_t keys_length, const void *template_text, size_t template_length,
    unsigned flags, const void *random, size_t random_length, const void *plaintext, size_t plaintext_length, void *object, size_t object_room, size_t *object_length,
    void *ciphertext, size_t ciphertext_room, size_t *ciphertext_length) LAKHDZEVA_STATUS_;

/* Encrypts the plaintext to each of the keys. Flags: LAKHDZEVA_COMPACT, LAKHDZEVA_DETACH. With LAKHDZEVA_DETACH the ciphertext goes to its own
   buffer, which is otherwise left alone and may be NULL, 0, NULL.
   - The recipients share its random key, so each of them can put another plaintext into the object.
   - When a host leaves, make a new key for each recipient that stays.
   - Without an `alg`, a password of 16, 24 or 32 bytes is used as a key itself, without iterations.
   - A password takes 100,000 iterations, or `p2c` of the template: name 600,000 there for one password.
   - Use a key for at most 2^32 objects with AES-GCM key wrap, or with `dir` and a GCM.
   - In the template `unprotected` is a header that is not authenticated, and `aad` is a text that everyone can read. */
enum lakhdzeva_status lakhdzeva_encrypt(const void *keys, size_t keys_length, const void *template_text, size_t template_length, unsigned flags,
    const void *plaintext, size_t plaintext_length, void *object, size_t object_room, size_t *object_length, void *ciphertext, size_t ciphertext_room,
    size_t *ciphertext_length) LAKHDZEVA_STATUS_;

/* A buffer size that is always enough for the plaintext of an object, with the ciphertext if you pass it. */
size_t lakhdzeva_decrypt_room(size_t object_length, size_t ciphertext_length) LAKHDZEVA_ROOM_;

/* Decrypts the object with one of the keys. Pass a ciphertext that is not in the object, and otherwise NULL, 0.
   `iterations` is the most iterations of PBKDF2 that the call may make in all. With 0 no password is tried.
   - An object names its iterations itself, so a stranger's costs seconds: 2,000,000 for each recipient, and 16,000,000 in all. A greater number
     means 16,000,000.
   - The sum counts each recipient with each key that fits. If it is above the number, the call is 15 LAKHDZEVA_LIMIT, before any derivation.
   - A password may have any length, so every key without `alg` fits. Give each key an `alg`: then one that is no password costs no iteration.
   - Name 600,000 for one password of today's recommendation.
   - The recipients share its random key, so each of them can put another plaintext into the object.
   - A malicious writer can make an object that opens to two plaintexts for two recipients.
   - It notices a changed `aad`, but does not check its text.
   - Each pair of a recipient and a key that fits can cost a pass over the ciphertext, at most 256 times 64. An attacker without a key can cause
     many of them: limit the length of strangers' objects. */
enum lakhdzeva_status lakhdzeva_decrypt(const void *keys, size_t keys_length, const void *object, size_t object_length, const void *ciphertext, size_t
    ciphertext_length, uint64_t iterations, void *plaintext, size_t room, size_t *length) LAKHDZEVA_STATUS_;

/* ---- Other forms */

/* A buffer size that is always enough for an object in another form, with a content that you pass or that is detached. */
size_t lakhdzeva_format_room(size_t object_length, size_t content_length) LAKHDZEVA_ROOM_;

/* A buffer size that is always enough for a content that is detached. */
size_t lakhdzeva_content_room(size_t object_length, size_t content_length) LAKHDZEVA_ROOM_;

/* Writes a signed object in compact form or in JSON form. It sees no key and verifies nothing. Pass a payload that is not in the
   object, and otherwise NULL, 0. Flags: LAKHDZEVA_COMPACT, LAKHDZEVA_DETACH. With LAKHDZEVA_DETACH the payload goes to its own buffer, which is
   otherwise left alone and may be NULL, 0, NULL. Unknown members are left out. */
enum lakhdzeva_status lakhdzeva_format_signed(const void *object, size_t object_length, const void *payload, size_t payload_length, unsigned flags,
    void *text, size_t text_room, size_t *text_length, void *detached, size_t detached_room, size_t *detached_length) LAKHDZEVA_STATUS_;

/* The same for an encrypted object and its ciphertext. It decrypts nothing. Unknown members are left out. */
enum lakhdzeva_status lakhdzeva_format_encrypted(const void *object, size_t object_length, const void *ciphertext, size_t ciphertext_length, unsigned
    flags, void *text, size_t text_room, size_t *text_length, void *detached, size_t detached_room, size_t *detached_length) LAKHDZEVA_STATUS_;

#ifdef __cplusplus
}
#endif

#endif
