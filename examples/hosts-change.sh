#!/bin/sh
# Several hosts can read some secrets. When a host leaves, every host that stays gets a new key, and each secret is encrypted again. An
# object has one content key for all its recipients, so a host that once opened an object can make new objects with this content key, which
# every other key of the object opens. It can do so even after it was taken off the list. Only new keys for all others end that.
set -eu
umask 077
# Another program may have the name jose: see EXIT STATUS in jose(1).
[ "$(jose 2>&1)" = 'jose: 1 Usage' ] || { echo 'this needs the jose of Lakhdzeva' >&2; exit 1; }
# The script overwrites nothing: it ends if one of these exists.
for name in keys keys.new secrets secret.plain; do
    if [ -e "$name" ] || [ -h "$name" ]; then
        echo "run this in a new folder, without $name" >&2
        exit 1
    fi
done
# The clear text is in a file that jose makes for its owner alone. It is deleted when the script ends, also by a
# signal, but not by KILL.
# clean: deletes the clear text. A signal that comes meanwhile ends neither the script nor rm. EXIT alone is not enough: dash and busybox leave
# out its trap if a signal ends them.
clean() {
    trap '' HUP INT QUIT PIPE ALRM TERM USR1 USR2
    rm -f secret.plain
}
trap 'clean || exit 1' EXIT
trap 'clean; exit 1' HUP INT QUIT PIPE ALRM TERM USR1 USR2

# new_keys FOLDER NAME..: a new folder with a new key for each name, and with a set of all of them for whoever encrypts. A set has at most
# 64 keys: jose-jwe-enc(1) shows what to do for more hosts.
new_keys() {
    folder=$1
    shift
    mkdir "$folder"
    for name; do
        jose jwk gen -i "{\"alg\":\"A256KW\",\"kid\":\"$name\"}" -o "$folder/$name.jwk" # here: copy it to the host by scp -p
    done
    jose-set join -o "$folder/all.jwks" "$folder"/*.jwk
}
# encrypt FOLDER NAME: standard input becomes the secret of this name, for every key of the folder.
encrypt() {
    jose jwe enc -k "$1/all.jwks" -o "secrets/$2.new" && sync "secrets/$2.new" && mv "secrets/$2.new" "secrets/$2"
}
mkdir secrets
new_keys keys admin a b c
echo 'correct horse' | encrypt keys database
echo 'battery staple' | encrypt keys mail

# A host reads a secret with its own key.
[ "$(jose jwe dec -i secrets/database -k keys/b.jwk)" = 'correct horse' ]

# Host b leaves, and host d joins. Host b may have kept what it read, so change the secrets themselves next.
# If the machine stops in what follows, go on by what is there, in this order, in a script that begins as this one does up to encrypt:
# - no keys.new: nothing has begun, or all is done, and then keys/d.jwk is there;
# - no keys.new/all.jwks, or an empty one: delete keys.new, and begin below this list;
# - no keys/admin.jwk: never delete keys.new now, and do what stands after the loop;
# - else delete secret.plain, which is clear text, and run the loop again. Each secret opens with the old or with the new key of admin, and
#   a file of secrets that ends in .new may be truncated.
new_keys keys.new admin a c d
sync
for secret in secrets/*; do
    case $secret in *.new) continue ;; esac
    jose-set join keys/admin.jwk keys.new/admin.jwk | jose jwe dec -i "$secret" -k - -O secret.plain || exit 1
    encrypt keys.new "${secret##*/}" < secret.plain || exit 1
    rm secret.plain
done
# A host gets its new key, then the secrets, and then deletes its old key. Nobody uses an old key again. The old keys are deleted when
# everything else is on the disk.
sync
if [ -s keys.new/all.jwks ]; then
    rm -r -f keys
    mv keys.new keys
fi
[ "$(jose jwe dec -i secrets/mail -k keys/d.jwk)" = 'battery staple' ]
[ "$(jose jwe dec -i secrets/database -k keys/a.jwk)" = 'correct horse' ]
