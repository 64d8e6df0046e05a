#!/bin/sh
# A secret for a service of systemd. It is encrypted to the key of the host. One unit decrypts it into /run, and the unit of the service
# loads it from there as a credential.
set -eu
umask 077
# Another program may have the name jose: see EXIT STATUS in jose(1).
[ "$(jose 2>&1)" = 'jose: 1 Usage' ] || { echo 'this needs the jose of Lakhdzeva' >&2; exit 1; }
# The script overwrites nothing: it ends if one of these exists.
for name in etc run credentials shop-secret.service shop.service; do
    if [ -e "$name" ] || [ -h "$name" ]; then
        echo "run this in a new folder, without $name" >&2
        exit 1
    fi
done
etc=$PWD/etc run=$PWD/run # in a real unit: /etc/shop and /run/shop-secret
# A line feed in a name would begin another line of a unit.
case $PWD in
    *'
'*)
        echo 'the name of the folder has a line feed' >&2
        exit 1
        ;;
esac
# The clear texts are deleted when the script ends, also by a signal, but not by KILL.
# clean: deletes the clear texts. A signal that comes meanwhile ends neither the script nor rm. EXIT alone is not enough: dash and busybox leave
# out its trap if a signal ends them.
clean() {
    trap '' HUP INT QUIT PIPE ALRM TERM USR1 USR2
    rm -f -r "$run" credentials
}
trap 'clean || exit 1' EXIT
trap 'clean; exit 1' HUP INT QUIT PIPE ALRM TERM USR1 USR2
mkdir "$etc"

# Once: the key of the host, and the secret. The object can be kept with other settings. The key stays on the host, for root alone.
jose jwk gen -i '{"alg":"A256KW","kid":"host-7"}' -o "$etc/host.jwk"
printf 'correct horse' | jose jwe enc -c -k "$etc/host.jwk" -o "$etc/db.jwe"
sync "$etc"/* "$etc"

# decrypt COMMAND..: passes the words of the unit's command to this command, or runs them. A name is a word here, and never text that a shell
# reads: the name of a folder may have spaces, quotes and $(..).
decrypt() {
    "$@" "$(command -v jose)" jwe dec -i "$etc/db.jwe" -k "$etc/host.jwk" -O "$run/db"
}
# quoted WORD..: the words as a unit has them: in quotes, where % and $ are written twice (systemd.service(5)).
quoted() {
    for word; do
        word=$(printf %s "$word" | sed 's/["\\]/\\&/g; s/[%$]/&&/g') || return
        printf '"%s" ' "$word"
    done
}
words=$(decrypt quoted)
# LoadCredential= takes no quotes.
loads=$(printf %s "$run/db" | sed 's/%/%%/g')

# The unit that decrypts. To change the secret, encrypt it to a new file, sync it,
# rename it to db.jwe, and restart this unit. It has the full path of jose. RuntimeDirectory= makes /run/shop-secret, and /run is in memory.
cat > shop-secret.service <<END
[Service]
Type=oneshot
RemainAfterExit=yes
RuntimeDirectory=shop-secret
RuntimeDirectoryMode=0700
ExecStart=$words
END

# The service. Requires= together with After= starts it only if the first unit succeeded: see systemd.unit(5).
cat > shop.service <<END
[Unit]
Requires=shop-secret.service
After=shop-secret.service

[Service]
DynamicUser=yes
LoadCredential=db:$loads
ExecStart=/bin/sh -c 'wc -c < "\$CREDENTIALS_DIRECTORY/db"'
END

# The same without systemd: the commands of both units, and between them a copy in place of the credential.
start() {
    mkdir -p "$run" credentials
    decrypt || return
    cp "$run/db" credentials/db
    CREDENTIALS_DIRECTORY=$PWD/credentials /bin/sh -c 'wc -c < "$CREDENTIALS_DIRECTORY/db"'
}
[ "$(start)" -eq 13 ]
