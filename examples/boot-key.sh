#!/bin/sh
# The key of a disk is encrypted to a password and to a key file. At boot either of them opens it: the key file if it is there, or the
# password, which is typed.
set -eu
umask 077
# Another program may have the name jose: see EXIT STATUS in jose(1).
[ "$(jose 2>&1)" = 'jose: 1 Usage' ] || { echo 'this needs the jose of Lakhdzeva' >&2; exit 1; }
# The script overwrites nothing: it ends if one of these exists.
for name in file.jwk disk.jwe; do
    if [ -e "$name" ] || [ -h "$name" ]; then
        echo "run this in a new folder, without $name" >&2
        exit 1
    fi
done
# The clear text is in a new folder that nobody else can enter, since umask does nothing in a folder with a default ACL (acl(5)). It is
# deleted when the script ends, also by a signal, but not by KILL.
clear=$(mktemp -d clear.XXXXXX)
# clean: deletes the clear text. A signal that comes meanwhile ends neither the script nor rm. EXIT alone is not enough: dash and busybox leave
# out its trap if a signal ends them.
clean() {
    trap '' HUP INT QUIT PIPE ALRM TERM USR1 USR2
    rm -f -r "$clear"
}
trap 'clean || exit 1' EXIT
trap 'clean; exit 1' HUP INT QUIT PIPE ALRM TERM USR1 USR2

# Once: the key of the disk is encrypted to both. jose-password asks twice for the password, which is in no file.
head -c 32 /dev/urandom > "$clear/disk.key"
jose jwk gen -i '{"alg":"A256KW","kid":"key file"}' -o file.jwk
jose-password -n | jose-set join file.jwk - |
    jose jwe enc -k - -i '{"protected":{"p2c":600000}}' -I "$clear/disk.key" -o disk.jwe
sync file.jwk disk.jwe .
# here: cryptsetup luksFormat /dev/sda2 "$clear/disk.key"

# At boot: the key goes through a pipe and is in no file. jose writes nothing of it before its tag has been checked. A damaged key file ends
# it: take the file away, and start again.
boot() {
    if [ -e file.jwk ]; then
        jose jwe dec -i disk.jwe -k file.jwk
    else
        jose-password dec -i disk.jwe
    fi | cmp - "$clear/disk.key" # here: cryptsetup open --key-file=- /dev/sda2 root
}
boot
# The key file is not there, so the script asks for the password.
rm file.jwk
boot
