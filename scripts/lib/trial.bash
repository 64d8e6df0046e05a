# Shared by the shell scripts that try the program: its path, or that of another build in JOSE_PROGRAM, a new folder $work, which is removed
# when the script ends, and the counts of what passed and failed. A script sources this before it changes its folder.
top=$(cd "$(dirname "${BASH_SOURCE[0]}")/../.." && pwd)
# shellcheck source=scripts/lib/built.bash
source "$top/scripts/lib/built.bash"
jose=${JOSE_PROGRAM:-$top/$built_program}
work=$(mktemp -d)
trap 'rm -rf "$work"' EXIT
passed=0
failed=0

# needs PROGRAM: ends the script if the program is not built.
needs() {
    [ -x "$1" ] || { echo "run make build first" >&2; exit 1; }
}

# told WHAT yes|no [WHY]: counts WHAT as passed or failed, and prints it.
told() {
    if [ "$2" = yes ]; then
        passed=$((passed + 1))
        echo "ok: $1"
    else
        failed=$((failed + 1))
        echo "FAILED: $1${3+: $3}"
    fi
}

# shows WHAT STATUS COMMAND..: passes if the command ends with this status. Its standard output and standard error go to $work/printed.
shows() {
    local what=$1 status=$2 got=0
    shift 2
    "$@" >"$work/printed.new" 2>&1 </dev/null || got=$?
    mv "$work/printed.new" "$work/printed"
    if [ "$got" = "$status" ]; then told "$what" yes; else told "$what" no "status $got, $(tail -n 3 "$work/printed")"; fi
}

# left_out WHAT WHY: prints that WHAT is not tried on this machine. That is no failure.
left_out() {
    echo "left out: $1, since $2"
}

# round_trip FOLDER AT RANDOM COMMAND..: makes keys, signs, verifies, encrypts, decrypts, and writes and reads base64url, with the
# command. The command sees FOLDER as AT and random octets at RANDOM.
round_trip() {
    local folder=$1 at=$2 random=$3
    shift 3
    printf 'a secret\n' >"$folder/secret"
    shows '  makes a key that signs' 0 "$@" jwk gen -i '{"alg":"HS256"}' -R "$random" -o "$at/sign.jwk"
    shows '  signs' 0 "$@" jws sig -c -k "$at/sign.jwk" -I "$at/secret" -o "$at/signed"
    shows '  verifies' 0 "$@" jws ver -i "$at/signed" -k "$at/sign.jwk" -O "$at/verified"
    shows '  to what was signed' 0 cmp "$folder/verified" "$folder/secret"
    shows '  makes a key that wraps' 0 "$@" jwk gen -i '{"alg":"A256KW"}' -R "$random" -o "$at/wrap.jwk"
    shows '  encrypts' 0 "$@" jwe enc -i '{"protected":{"enc":"A128GCM"}}' -k "$at/wrap.jwk" -I "$at/secret" -R "$random" -o "$at/encrypted"
    shows '  decrypts' 0 "$@" jwe dec -i "$at/encrypted" -k "$at/wrap.jwk" -O "$at/decrypted"
    shows '  to what was encrypted' 0 cmp "$folder/decrypted" "$folder/secret"
    shows '  refuses another key' 1 "$@" jwe dec -i "$at/encrypted" -k "$at/sign.jwk" -O "$at/other"
    shows '  by its name' 0 grep -qx 'jose: 14 KeyDoesNotFit' printed
    shows '  and writes nothing' 1 test -e "$folder/other"
    shows '  writes base64url' 0 "$@" b64 enc -I "$at/secret" -o "$at/text"
    shows '  and reads it' 0 "$@" b64 dec -i "$at/text" -O "$at/octets"
    shows '  to the same octets' 0 cmp "$folder/octets" "$folder/secret"
    (cd "$folder" && rm -f secret sign.jwk signed verified wrap.jwk encrypted decrypted other text octets)
}

# space_at_start PROGRAM: prints the KiB of address space that the program takes at its start, while a command waits for a pipe.
space_at_start() {
    mkfifo "$work/idle"
    "$1" b64 enc -I "$work/idle" -o /dev/null &
    exec 3>"$work/idle"
    sed -n 's/^VmPeak:[^0-9]*\([0-9]*\) kB/\1/p' "/proc/$!/status"
    exec 3>&-
    wait $!
    rm "$work/idle"
}

# random_in ROOT: makes a source of random octets in ROOT, and prints its path as the programs there see it.
random_in() {
    mkdir -p "$1/dev" "$1/tmp"
    [ -c "$1/dev/urandom" ] || mknod -m 444 "$1/dev/urandom" c 1 9 2>/dev/null || true
    if head -c 1 "$1/dev/urandom" >/dev/null 2>&1; then
        echo /dev/urandom
    else
        head -c 4096 /dev/urandom >"$1/random"
        echo /random
    fi
}

# end: prints the last line of the script, and returns its status.
end() {
    echo "$passed passed, $failed failed"
    [ "$failed" = 0 ]
}
