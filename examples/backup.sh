#!/bin/sh
# A backup is encrypted as it is made, in parts that fit into memory when they are decrypted. Encrypting holds 4,096 octets of a part, and
# decrypting holds the whole part once or twice. With A256KW and the default A256CBC-HS512, and parts of 64 MiB, 10 GB take about two
# minutes, and three to restore. The script needs split of GNU coreutils, which has --filter. Keep backup.jwk elsewhere than parts.
set -eu
umask 077
# Another program may have the name jose: see EXIT STATUS in jose(1).
[ "$(jose 2>&1)" = 'jose: 1 Usage' ] || { echo 'this needs the jose of Lakhdzeva' >&2; exit 1; }
# The script overwrites nothing: it ends if one of these exists.
for name in backup.jwk parts; do
    if [ -e "$name" ] || [ -h "$name" ]; then
        echo "run this in a new folder, without $name" >&2
        exit 1
    fi
done
# All clear texts are in a new folder that nobody else can enter. umask is not enough for that: in a folder with a default ACL (acl(5)) it
# does nothing. The clear texts are deleted when the script ends, also by a signal, but not by KILL.
clear=$(mktemp -d clear.XXXXXX)
# clean: deletes the clear texts. A signal that comes meanwhile ends neither the script nor rm. EXIT alone is not enough: dash and busybox leave
# out its trap if a signal ends them.
clean() {
    trap '' HUP INT QUIT PIPE ALRM TERM USR1 USR2
    rm -f -r "$clear"
}
trap 'clean || exit 1' EXIT
trap 'clean; exit 1' HUP INT QUIT PIPE ALRM TERM USR1 USR2
mkdir "$clear/files"
head -c 300000 /dev/urandom > "$clear/files/image"
echo 'correct horse' > "$clear/files/secret.txt"
# Once: the key.
jose jwk gen -i '{"alg":"A256KW","kid":"backup"}' -o backup.jwk

# Make it, each time in a new folder. Each part is a ciphertext of its own, with its object next to it. Parts have 100,000 octets here, since
# the demonstration is small; write `-b 64M` for files, or as much as the memory of the machine that decrypts them allows. If tar fails, the
# last part is well-formed and too short, and a pipe ends with the status of its last command alone. So tar leaves a mark if it succeeds,
# and rm fails without the mark. tar fails too if a file changes while it is read: back up a snapshot, or a copy.
mkdir parts
{ tar -C "$clear" -cf - files && : > "$clear/whole"; } |
    split -b 100000 --filter='jose jwe enc -c -k backup.jwk -o "parts/$FILE.jwe" -O "parts/$FILE.enc"' - part-
rm "$clear/whole"
# Nothing else binds the parts together, so a list of checksums of their objects is encrypted too. Each object has the tag of its part.
(cd ./parts && sha256sum part-*.jwe) > "$clear/list"
jose jwe enc -c -k backup.jwk -I "$clear/list" -o parts/list.jwe
sync parts/* parts .

# Restore it. Strangers may have changed the folder parts meanwhile. So the script uses only the names in the decrypted list, and compares
# copies of the objects with it. All parts are decrypted before the archive is unpacked. An old backup restores too, if somebody puts it
# back as a whole.
mkdir "$clear/copies" "$clear/restored"
# take NAME: copies a file of parts to where nobody else can change it. -R and -P copy a link, a pipe or a device without opening it: a pipe
# would never end, nor would a link to /dev/zero.
take() {
    cp -R -P "parts/$1" "$clear/copies/$1"
    if [ -h "$clear/copies/$1" ] || [ ! -f "$clear/copies/$1" ]; then
        echo "parts/$1: it is not a file" >&2
        exit 1
    fi
}
take list.jwe
jose jwe dec -i "$clear/copies/list.jwe" -k backup.jwk -O "$clear/list"
while read -r sum object; do
    letters=${object#part-}
    letters=${letters%.jwe}
    case $letters in
        '' | *[!a-z]*)
            echo 'the list has a name that is not one of a part' >&2
            exit 1
            ;;
    esac
    take "part-$letters.jwe"
    take "part-$letters.enc"
    [ "$(sha256sum < "$clear/copies/part-$letters.jwe")" = "$sum  -" ]
    jose jwe dec -i "$clear/copies/part-$letters.jwe" -I "$clear/copies/part-$letters.enc" -k backup.jwk >> "$clear/tar"
    rm "$clear/copies/part-$letters.enc"
done < "$clear/list"
tar -xf "$clear/tar" -C "$clear/restored"
cmp "$clear/files/image" "$clear/restored/files/image"
cmp "$clear/files/secret.txt" "$clear/restored/files/secret.txt"
