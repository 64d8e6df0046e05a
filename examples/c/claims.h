/* The claims of a JWT (RFC 7519) whose signature was verified. Link with -ljansson and -llakhdzeva. */
#ifndef CLAIMS_H
#define CLAIMS_H

#include <jansson.h>
#include <stddef.h>

/* What the claims of a token must be. NULL expects nothing, but an `aud` that is not expected refuses the token. An empty text is refused. */
struct expected {
    const char *issuer, *audience, *type;
    double leeway; /* seconds by which the clocks may differ */
};

/* Reads the claims in the payload of this token, which was verified, at this time in seconds since 1970. Returns NULL and the claims, which the
   caller gives back by json_decref. If a claim is wrong, it returns the claim's name: form, claims, typ, exp, nbf, iss or aud. `exp` must be
   there. It returns "expected", for each token, if the caller is at fault: an expected text is empty (a type is empty too if it has `application/`
   alone), the leeway is negative, or a time is not finite. */
const char *claims_of(const char *token, size_t token_length, const char *payload, size_t payload_length, const struct expected *expected, double now,
    json_t **claims);

#endif
