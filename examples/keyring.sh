#!/bin/sh
# A folder has a file for each key, with its name. The script finds the key for an object by the `kid` in its header. jose does not look
# at a kid, and anyone can write one: the key alone decides whether the object verifies.
set -eu
umask 077
# Another program may have the name jose: see EXIT STATUS in jose(1).
[ "$(jose 2>&1)" = 'jose: 1 Usage' ] || { echo 'this needs the jose of Lakhdzeva' >&2; exit 1; }
# The script overwrites nothing: it ends if one of these exists.
for name in ring report report.jws verified; do
    if [ -e "$name" ] || [ -h "$name" ]; then
        echo "run this in a new folder, without $name" >&2
        exit 1
    fi
done
mkdir ring
for name in host-7 host-8; do
    jose jwk gen -i "{\"alg\":\"HS256\",\"kid\":\"$name\"}" -o "ring/$name.jwk"
done

# The signer writes the name of the key into the header.
echo 'load: 0.25' > report
jose jws sig -c -s '{"protected":{"kid":"host-8"}}' -k ring/host-8.jwk -I report -o report.jws

# The verifier reads it from the protected header, and uses it only if it has letters, digits and hyphens alone. jose-look shows a header
# to a person.
kid=$(cut -d. -f1 report.jws | jose b64 dec | sed -n 's/.*"kid":"\([A-Za-z0-9-]*\)".*/\1/p')
[ -e "ring/$kid.jwk" ]
jose jws ver -i report.jws -k "ring/$kid.jwk" -O verified
cmp report verified

# The thumbprint names a key by its secret alone, whatever its kid is. jose-set takes all keys into one set only if they differ by it.
jose-set join ring/*.jwk > /dev/null
