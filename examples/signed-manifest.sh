#!/bin/sh
# A manifest is signed where it is built, and verified where it is installed, while the key is changed for a new one.
set -eu
umask 077
# Another program may have the name jose: see EXIT STATUS in jose(1).
[ "$(jose 2>&1)" = 'jose: 1 Usage' ] || { echo 'this needs the jose of Lakhdzeva' >&2; exit 1; }
# The script overwrites nothing: it ends if one of these exists.
for name in 2026.jwk 2027.jwk trusted.jwks manifest.yaml manifest.sig manifest.sig.new installed.yaml installed.yaml.new; do
    if [ -e "$name" ] || [ -h "$name" ]; then
        echo "run this in a new folder, without $name" >&2
        exit 1
    fi
done

# Once: make a key for the builder, and a set of trusted keys for the hosts.
jose jwk gen -i '{"alg":"HS256","kid":"2026"}' -o 2026.jwk
jose-set join -o trusted.jwks 2026.jwk

# The builder writes a signature next to each release: one line of text.
echo 'replicas: 3' > manifest.yaml
jose jws sig -c -k 2026.jwk -I manifest.yaml -o manifest.sig -O /dev/null

# A host installs only what verifies. jose writes the file itself, so what is installed is what was verified.
jose jws ver -i manifest.sig -I manifest.yaml -k trusted.jwks -O installed.yaml.new
sync installed.yaml.new
mv installed.yaml.new installed.yaml

# A new key: first the hosts add it to their set, then the builder signs with it, and finally the hosts remove the old one.
jose jwk gen -i '{"alg":"HS256","kid":"2027"}' -o 2027.jwk
jose-set add trusted.jwks 2027.jwk
jose jws ver -i manifest.sig -I manifest.yaml -k trusted.jwks
jose jws sig -c -k 2027.jwk -I manifest.yaml -o manifest.sig.new -O /dev/null
sync manifest.sig.new
mv manifest.sig.new manifest.sig
jose jws ver -i manifest.sig -I manifest.yaml -k trusted.jwks
jose-set remove trusted.jwks "$(jose jwk thp -i 2026.jwk)"
jose jws ver -i manifest.sig -I manifest.yaml -k trusted.jwks
