#!/bin/sh
# A token for a web service: signed claims that are valid for some minutes. jose verifies the signature. The service itself judges the
# claims, `exp` among them.
set -eu
umask 077
# Another program may have the name jose: see EXIT STATUS in jose(1).
[ "$(jose 2>&1)" = 'jose: 1 Usage' ] || { echo 'this needs the jose of Lakhdzeva' >&2; exit 1; }
# The script overwrites nothing: it ends if one of these exists.
for name in service.jwk claims.json; do
    if [ -e "$name" ] || [ -h "$name" ]; then
        echo "run this in a new folder, without $name" >&2
        exit 1
    fi
done
jose jwk gen -i '{"alg":"HS256"}' -o service.jwk

# The login service issues the token. It is one line of text, and anyone who has it can read the claims.
now=$(date +%s)
printf '{"iss":"login","aud":"api","sub":"ann","exp":%d}' $((now + 600)) > claims.json
token=$(jose jws sig -c -s '{"protected":{"typ":"JWT"}}' -k service.jwk -I claims.json)

# accepts TOKEN: the service. It prints for whom the token is, and refuses one of another issuer, for another audience, without exp or sub, or
# not valid yet. A token is in compact form alone (RFC 7519 section 3): the JSON form can have 256 signatures, each of which costs work. The
# token comes on standard input: -i "$token" would be the name of a file. A parser of JSON reads the claims. docs/SERVICES.md has more.
accepts() {
    case $1 in
        *[!A-Za-z0-9_.-]*) return 1 ;;
    esac
    claims=$(printf '%s' "$1" | jose jws ver -k service.jwk -O - 2>/dev/null) || return
    python3 -c 'import json, sys, time
claims = json.loads(sys.argv[1])
good = claims["iss"] == "login" and claims["aud"] == "api" and isinstance(claims["sub"], str)
good = good and claims.get("nbf", 0) <= time.time() < claims["exp"]
print(claims["sub"]) if good else sys.exit(1)' "$claims" 2>/dev/null
}
[ "$(accepts "$token")" = ann ]
