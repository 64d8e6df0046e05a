#!/bin/sh
# A release is installed only if two people signed it. They sign at different places, each with a key of their own. The host that
# verifies has both keys, so it could sign as well: the rule binds Ann and Bob, but not the host.
set -eu
umask 077
# Another program may have the name jose: see EXIT STATUS in jose(1).
[ "$(jose 2>&1)" = 'jose: 1 Usage' ] || { echo 'this needs the jose of Lakhdzeva' >&2; exit 1; }
# The script overwrites nothing: it ends if one of these exists.
for name in ann.jwk bob.jwk eve.jwk people.jwks release release.ann release.bob release.eve release.jws release.new; do
    if [ -e "$name" ] || [ -h "$name" ]; then
        echo "run this in a new folder, without $name" >&2
        exit 1
    fi
done
for name in ann bob; do
    jose jwk gen -i "{\"alg\":\"HS256\",\"kid\":\"$name\"}" -o "$name.jwk"
done
echo 'image: shop:1.4' > release

# Ann and Bob each sign the release. A signature is one line of text.
for name in ann bob; do
    jose jws sig -c -k "$name.jwk" -I release -o "release.$name" -O /dev/null
done

# join FILE..: one object with the signatures in these files, without the payload.
join() {
    comma=
    printf '{"signatures":['
    for file; do
        # The file has no line feed at its end, so read does not succeed.
        IFS=. read -r protected _ signature < "$file" || [ -n "$signature" ]
        printf '%s{"protected":"%s","signature":"%s"}' "$comma" "$protected" "$signature"
        comma=,
    done
    printf ']}'
}
join release.ann release.bob > release.jws

# The host has a set of both keys. jose-verify-all refuses a set that has a bad key, not exactly two keys, or two keys that sign alike. By
# itself -a of jose would pass over a bad key, and Ann could sign for Bob.
jose-set join -o people.jwks ann.jwk bob.jwk
jose-verify-all 2 people.jwks -i release.jws -I release

# A third person: the key is added to the set. Then two of the three are enough for one rule, and another wants all three.
jose jwk gen -i '{"alg":"HS256","kid":"eve"}' -o eve.jwk
jose-set add people.jwks eve.jwk
jose-verify-all 2/3 people.jwks -i release.jws -I release
jose jws sig -c -k eve.jwk -I release -o release.eve -O /dev/null
join release.ann release.bob release.eve > release.new
sync release.new
mv release.new release.jws
jose-verify-all 3 people.jwks -i release.jws -I release
