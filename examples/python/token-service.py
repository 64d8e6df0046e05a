#!/usr/bin/env python3
"""A web service that answers only requests with a valid token (RFC 6750):

     jose jwk gen -i '{"alg":"HS256"}' -o service.jwk
     python3 token-service.py service.jwk 8080 login api
     printf '{"iss":"login","aud":"api","sub":"ann","exp":%d}' $(($(date +%s) + 600)) > claims.json
     jose jws sig -c -k service.jwk -I claims.json | sed 's/^/Authorization: Bearer /' | curl -H @- http://127.0.0.1:8080/

The words are the file of the keys, the port, the issuer and the audience that each token must name. The file has one key, or a set of keys
while one key replaces another. The service starts if every key of it may verify signatures. If the file changes, the service reads it again.
If one of the new keys may not verify, it says so and keeps the old ones. So write a new file and rename it. A bad token is 401. What is not
the sender's fault is 500. It reads no body, and closes after each answer. claims.py has to lie beside it. Put a server in front that speaks TLS.
"""
import contextlib, json, os, re, socket, stat, sys, threading, time, traceback

import lakhdzeva
from claims import claims_of

# A longer header is not looked at, since the work grows with it.
MOST_OCTETS = 4096
# The scheme may be in small letters or capitals (RFC 9110 section 11.1). A JWT is in compact form.
CREDENTIALS = re.compile(r"bearer +([A-Za-z0-9_.-]+)", re.ASCII | re.IGNORECASE)
# The most bytes of the head of a request, and the seconds in which all of it must come.
MOST_HEAD, DEADLINE = 16384, 10
# Seconds by which the clocks may differ.
LEEWAY = 30


def log(text):
    """Writes a line to the log. One that cannot be written, since nobody reads it or the disk is full, is lost and changes no answer."""
    with contextlib.suppress(OSError, ValueError):
        print(f"token-service.py: {text}", file=sys.stderr, flush=True)


class KeyFile:
    """The keys in a file, which are read again when the file changes."""

    def __init__(self, name):
        self.name, self.lock, self.seen, self.keys = name, threading.Lock(), None, None
        self.read()

    @staticmethod
    def state_of(it):
        """What tells a file and its content from others. A writer can keep the length and the other time, but not the time of the last change."""
        return it.st_dev, it.st_ino, it.st_size, it.st_mtime_ns, it.st_ctime_ns

    def read(self):
        """Reads the keys, if the file is not the one that was read."""
        if self.seen == self.state_of(os.stat(self.name)):
            return
        # Without O_NONBLOCK a pipe would wait for a writer.
        with open(self.name, "rb", opener=lambda name, flags: os.open(name, flags | os.O_NONBLOCK)) as file:
            found = os.fstat(file.fileno())
            text = file.read() if stat.S_ISREG(found.st_mode) else None
        # A file that could not be read is tried again at the next request, and one with broken keys is not.
        self.seen = self.state_of(found)
        if text is None:
            raise ValueError("it is no regular file")
        try:
            keys = lakhdzeva.Keys(text)
        except lakhdzeva.refusals.Memory:
            self.seen = None
            raise
        for at, uses in enumerate(keys.uses):
            if not uses.verify:
                raise ValueError(f"the key at position {at} may not verify signatures")
        self.keys = keys
        log(f"{self.name}: keys: {len(keys)}")

    def now(self):
        """The keys that the file has now, or had before it was broken."""
        with self.lock:
            try:
                self.read()
            except (OSError, ValueError, lakhdzeva.Refused) as fault:
                log(f"{self.name} is not read again: {fault}")
            return self.keys


def head_of(stream):
    """The lines of the head of a request, if it comes before the deadline. Otherwise it is an OSError."""
    head, ends = b"", time.monotonic() + DEADLINE
    while b"\r\n\r\n" not in head:
        left = ends - time.monotonic()
        if left <= 0:
            raise TimeoutError
        stream.settimeout(left)
        part = stream.recv(MOST_HEAD - len(head))
        if not part:
            raise ConnectionError
        head += part
    return head.partition(b"\r\n\r\n")[0].split(b"\r\n")


def authorization(lines):
    """The header Authorization of the request. Of several none is taken, even if one is empty. In a head with a line end that is not CRLF none is
    taken, since other programs may see other headers there."""
    values = [value.strip(b" \t") for name, _, value in (line.partition(b":") for line in lines) if name.lower() == b"authorization"]
    if len(values) > 1 or any(re.search(rb"[\r\n]", line) for line in lines):
        return "several"
    return values[0].decode("latin-1") if values else ""


class Service:
    def __init__(self, keys, issuer, audience):
        self.keys, self.issuer, self.audience = keys, issuer, audience

    def serve(self, stream):
        with stream, contextlib.suppress(OSError):
            header = authorization(head_of(stream))
            try:
                status, challenge, body = self.answer(header)
            except Exception:
                # The keys or this machine are at fault. The sender need not know why.
                log(traceback.format_exc())
                status, challenge, body = "500 Internal Server Error", None, {"error": "the service has a fault"}
            text = json.dumps(body)
            challenges = f"WWW-Authenticate: {challenge}\r\n" if challenge else ""
            head = f"HTTP/1.1 {status}\r\n{challenges}Content-Type: application/json\r\nContent-Length: {len(text)}\r\nConnection: close\r\n\r\n"
            stream.settimeout(DEADLINE)
            stream.sendall((head + text).encode())

    def answer(self, header):
        """The status, the challenge and the body of the answer."""
        if not header:
            return "401 Unauthorized", "Bearer", {"error": "no token"}
        found = CREDENTIALS.fullmatch(header) if len(header) <= MOST_OCTETS else None
        try:
            if not found:
                raise ValueError("form")
            token = found[1].encode()
            payload = lakhdzeva.verify(self.keys.now(), token)
            claims = claims_of(token, payload, time.time(), issuer=self.issuer, audience=self.audience, leeway=LEEWAY)
            if type(claims.get("sub")) is not str:
                raise ValueError("sub")
        except (lakhdzeva.BadToken, ValueError) as fault:
            log(f"a bad token: {fault}")
            return "401 Unauthorized", 'Bearer error="invalid_token"', {"error": "no valid token"}
        return "200 OK", None, {"you": claims["sub"]}


def main():
    if len(sys.argv) != 5:
        sys.exit("usage: token-service.py KEYS PORT ISSUER AUDIENCE")
    name, port, issuer, audience = sys.argv[1:]
    if not issuer or not audience:
        sys.exit("token-service.py: the issuer and the audience must not be empty")
    threading.stack_size(1 << 20)  # A call of the library needs 256 KiB, and musl gives a thread 128.
    try:
        # Broken keys end the service here, and not at each request.
        service = Service(KeyFile(name), issuer, audience)
    except (OSError, ValueError, lakhdzeva.Refused) as fault:
        sys.exit(f"token-service.py: {name}: {fault}")
    listener = socket.create_server(("127.0.0.1", int(port)), backlog=1024)
    with contextlib.suppress(OSError, ValueError):
        print(f"listening on port {listener.getsockname()[1]}", flush=True)
    while True:
        try:
            stream, _ = listener.accept()
            threading.Thread(target=service.serve, args=(stream,), daemon=True).start()
        except (OSError, RuntimeError) as fault:
            # Too many are open, or there is no memory for another thread.
            log(fault)
            time.sleep(0.02)


if __name__ == "__main__":
    main()
