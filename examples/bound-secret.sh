#!/bin/sh
# Secrets for several hosts that share one key: each object names its host in `aad`, and a host opens only an object that names it.
# The name cannot be changed without the key. But an unchanged object of another host opens too, so each reader must compare the name
# with its own. Hosts that have a key and an object each need none of this.
set -eu
umask 077
# Another program may have the name jose: see EXIT STATUS in jose(1).
[ "$(jose 2>&1)" = 'jose: 1 Usage' ] || { echo 'this needs the jose of Lakhdzeva' >&2; exit 1; }
# The script overwrites nothing: it ends if one of these exists.
for name in hosts.jwk host-7 host-8; do
    if [ -e "$name" ] || [ -h "$name" ]; then
        echo "run this in a new folder, without $name" >&2
        exit 1
    fi
done
jose jwk gen -i '{"alg":"A256KW","kid":"hosts"}' -o hosts.jwk

# named NAME: the name as base64url text. An empty name is refused, because an empty `aad` binds nothing.
named() {
    [ -n "$1" ] || { echo 'the name is empty' >&2; return 1; }
    printf %s "$1" | jose b64 enc
}
# encrypt_for NAME: standard input, encrypted for this host.
encrypt_for() (
    name=$(named "$1") || exit
    jose jwe enc -i "{\"aad\":\"$name\"}" -k hosts.jwk
)
mkdir host-7 host-8
echo 'correct horse' | encrypt_for host-7 > host-7/secret
echo 'battery staple' | encrypt_for host-8 > host-8/secret

# open_for NAME OBJECT: the plaintext, if the object names this host. `jwe fmt` writes the members in the order of their names, each
# once, so the object has this `aad` only if its text begins with it. What is compared is what is decrypted.
open_for() (
    name=$(named "$1") || exit
    object=$(jose jwe fmt -i "$2") || exit
    case $object in
        "{\"aad\":\"$name\","*) printf %s "$object" | jose jwe dec -k hosts.jwk ;;
        *) echo "$2 is not for $1" >&2; exit 1 ;;
    esac
)
[ "$(open_for host-7 host-7/secret)" = 'correct horse' ]
[ "$(open_for host-8 host-8/secret)" = 'battery staple' ]

# put_in NAME OBJECT: the same in another way. The object is built again with this name in the place of its own. If it was made for
# another host, jose refuses it with 17 NotOpened.
put_in() (
    name=$(named "$1") || exit
    object=$(jose jwe fmt -i "$2") || exit
    printf %s "$object" | sed "s/^{\"aad\":\"[^\"]*\",/{/; s/^{/{\"aad\":\"$name\",/" | jose jwe dec -k hosts.jwk
)
[ "$(put_in host-7 host-7/secret)" = 'correct horse' ]
