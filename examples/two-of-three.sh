#!/bin/sh
# A secret that any two of three people open together, and none of them alone. For each two of them there is an object that is encrypted
# to one of them and then to the other.
set -eu
umask 077
# Another program may have the name jose: see EXIT STATUS in jose(1).
[ "$(jose 2>&1)" = 'jose: 1 Usage' ] || { echo 'this needs the jose of Lakhdzeva' >&2; exit 1; }
# The script overwrites nothing: it ends if one of these exists.
for name in ann.jwk bob.jwk cay.jwk ann-bob.jwe ann-cay.jwe bob-cay.jwe; do
    if [ -e "$name" ] || [ -h "$name" ]; then
        echo "run this in a new folder, without $name" >&2
        exit 1
    fi
done
# The clear text is in a new folder that nobody else can enter, since umask does nothing in a folder with a default ACL (acl(5)). It is
# deleted when the script ends, also by a signal, but not by KILL.
clear=$(mktemp -d clear.XXXXXX)
# clean: deletes the clear text. A signal that comes meanwhile ends neither the script nor rm. EXIT alone is not enough: dash and busybox leave
# out its trap if a signal ends them.
clean() {
    trap '' HUP INT QUIT PIPE ALRM TERM USR1 USR2
    rm -f -r "$clear"
}
trap 'clean || exit 1' EXIT
trap 'clean; exit 1' HUP INT QUIT PIPE ALRM TERM USR1 USR2
head -c 32 /dev/urandom > "$clear/secret"
for name in ann bob cay; do
    jose jwk gen -i "{\"alg\":\"A256KW\",\"kid\":\"$name\"}" -o "$name.jwk"
done

# Once, where all keys are: three objects, each of which is encrypted twice.
for pair in 'ann bob' 'ann cay' 'bob cay'; do
    first=${pair% *} second=${pair#* }
    jose jwe enc -c -k "$first.jwk" -I "$clear/secret" -o "$clear/inner"
    jose jwe enc -c -k "$second.jwk" -I "$clear/inner" -o "$first-$second.jwe"
done
sync ./*.jwk ./*.jwe .

# Bob and Cay open it: Cay first, who hands an object to Bob that only he can read. If the first command refuses, the second one reads
# an empty object and refuses as well, so its status is enough.
jose jwe dec -i bob-cay.jwe -k cay.jwk | jose jwe dec -k bob.jwk | cmp - "$clear/secret"
jose jwe dec -i ann-bob.jwe -k bob.jwk | jose jwe dec -k ann.jwk | cmp - "$clear/secret"
jose jwe dec -i ann-cay.jwe -k cay.jwk | jose jwe dec -k ann.jwk | cmp - "$clear/secret"
