#!/bin/sh
# A folder is encrypted to a password as tar writes it, and unpacked as it is decrypted. The content goes through standard input, so the
# password comes from the terminal or from a file.
set -eu
umask 077
# Another program may have the name jose: see EXIT STATUS in jose(1).
[ "$(jose 2>&1)" = 'jose: 1 Usage' ] || { echo 'this needs the jose of Lakhdzeva' >&2; exit 1; }
# The script overwrites nothing: it ends if one of these exists.
for name in typed.jwe typed.enc file.jwe file.enc sh.jwe sh.enc bash.jwe bash.enc; do
    if [ -e "$name" ] || [ -h "$name" ]; then
        echo "run this in a new folder, without $name" >&2
        exit 1
    fi
done
# The clear texts are in a new folder that nobody else can enter, since umask does nothing in a folder with a default ACL (acl(5)). They are
# deleted when the script ends, also by a signal, but not by KILL.
clear=$(mktemp -d clear.XXXXXX)
# clean: deletes the clear texts. A signal that comes meanwhile ends neither the script nor rm. EXIT alone is not enough: dash and busybox leave
# out its trap if a signal ends them.
clean() {
    trap '' HUP INT QUIT PIPE ALRM TERM USR1 USR2
    rm -f -r "$clear"
}
trap 'clean || exit 1' EXIT
trap 'clean; exit 1' HUP INT QUIT PIPE ALRM TERM USR1 USR2
mkdir "$clear/files" "$clear/typed" "$clear/file" "$clear/sh" "$clear/bash"
echo 'correct horse' > "$clear/files/secret.txt"

# A pipe ends with the status of its last command alone. So the first command leaves a mark if it succeeds, and rm fails without the mark.
# pack: writes the folder as an archive. unpack NAME: unpacks it.
pack() {
    tar -C "$clear" -cf - files && : > "$clear/whole"
}
unpack() {
    tar -xf - -C "$clear/$1"
    cmp "$clear/files/secret.txt" "$clear/$1/files/secret.txt"
}

# At a terminal: jose-password asks for the new password twice there, and later once.
pack | jose-password enc -o typed.jwe -O typed.enc
rm "$clear/whole"
{ jose-password dec -i typed.jwe -I typed.enc && : > "$clear/whole"; } | unpack typed
rm "$clear/whole"

# Without a terminal: the password is the first line of a file.
echo 'four words drawn at random' > "$clear/word"
pack | jose-password -f "$clear/word" enc -o file.jwe -O file.enc
rm "$clear/whole"
{ jose-password -f "$clear/word" dec -i file.jwe -I file.enc && : > "$clear/whole"; } | unpack file
rm "$clear/whole"

# The same without the tool. The key goes through a pipe that jose opens as /dev/fd/3, while descriptor 4 keeps standard input. `printf` is
# a command of the shell itself, so no list of processes has the password. A key that is not whole is no JSON, and jose refuses it.
IFS= read -r password < "$clear/word"
key() {
    k=$(printf '%s' "$password" | jose b64 enc) || exit
    printf '{"kty":"oct","alg":"PBES2-HS256+A128KW","k":"%s"}' "$k"
}
pack | {
    key | jose jwe enc -k /dev/fd/3 -i '{"protected":{"p2c":600000}}' -o sh.jwe -O sh.enc 3<&0 <&4
} 4<&0
rm "$clear/whole"
{ key | jose jwe dec -k - -i sh.jwe -I sh.enc && : > "$clear/whole"; } | unpack sh
rm "$clear/whole"

# The same in bash, which has names for pipes, and an option for the status of each command.
if command -v bash >/dev/null; then
    clear=$clear bash -c '
        set -e -o pipefail
        IFS= read -r password < "$clear/word"
        key() {
            k=$(printf "%s" "$password" | jose b64 enc) || exit
            printf "{\"kty\":\"oct\",\"alg\":\"PBES2-HS256+A128KW\",\"k\":\"%s\"}" "$k"
        }
        tar -C "$clear" -cf - files | jose jwe enc -k <(key) -i "{\"protected\":{\"p2c\":600000}}" -o bash.jwe -O bash.enc
        jose jwe dec -k <(key) -i bash.jwe -I bash.enc | tar -xf - -C "$clear/bash"
        cmp "$clear/files/secret.txt" "$clear/bash/files/secret.txt"
    '
fi
