#!/bin/sh
# A webhook: the body of a request is plain JSON, and a header of the request has its signature. A service, here in Python and in bash,
# verifies the octets that it received before it parses them. It writes neither body nor signature to the disk.
set -eu
umask 077
# Another program may have the name jose: see EXIT STATUS in jose(1).
[ "$(jose 2>&1)" = 'jose: 1 Usage' ] || { echo 'this needs the jose of Lakhdzeva' >&2; exit 1; }
# The script overwrites nothing: it ends if one of these exists.
for name in hook.jwk body service.py service.bash; do
    if [ -e "$name" ] || [ -h "$name" ]; then
        echo "run this in a new folder, without $name" >&2
        exit 1
    fi
done
jose jwk gen -i '{"alg":"HS256","kid":"hook"}' -o hook.jwk

# The sender: a compact object without its payload, for a header such as `X-Signature: eyJ..`. A request that is sent again verifies
# again, so the body has a number. The service must remember the numbers.
printf '{"number":41,"event":"paid"}' > body
signature=$(jose jws sig -c -k hook.jwk -I body -O /dev/null)

# A service in Python, with the library. The body is standard input. The signature must be in compact form, and its length is limited, since the
# JSON form can have several signatures, each of which costs work. A fault of the service's own, such as a broken key, ends it with an error.
cat > service.py <<'END'
import re, sys
import lakhdzeva

keys = lakhdzeva.Keys.from_file("hook.jwk")

def verified(signature, body):
    if not re.fullmatch(r"[A-Za-z0-9_.-]{1,1000}", signature):
        return False
    try:
        lakhdzeva.verify_detached(keys, signature, body)
    except lakhdzeva.BadToken:
        return False
    return True

sys.exit(not verified(sys.argv[1], sys.stdin.buffer.read()))
END

# A service in bash. The body is standard input, and the signature is a pipe.
cat > service.bash <<'END'
[[ ${#1} -le 1000 && $1 != *[!A-Za-z0-9_.-]* ]] || exit
jose jws ver -i <(printf %s "$1") -I - -k hook.jwk 2>/dev/null
END

# accepts SERVICE: each accepts the request, and refuses another body. What the machine lacks is left out.
accepts() {
    $1 "$signature" < body
    if printf '{"number":41,"event":"free"}' | $1 "$signature"; then
        exit 1
    fi
}
if python3 -c 'import lakhdzeva' 2>/dev/null; then
    accepts 'python3 service.py'
fi
if command -v bash >/dev/null; then
    accepts 'bash service.bash'
fi
