"""Tries what the web services of examples/ must bear: a log that cannot be written, empty expectations, several headers Authorization, files of keys
that hide a change or never end, and clients that send slowly. scripts/bindings runs it, with what lib/services.py built.
"""
import asyncio, contextlib, http.client, json, os, pathlib, re, resource, socket, subprocess, tempfile, time

from lib.services import AUDIENCE, BAD_TOKEN, EXAMPLES, ISSUER, NO_TOKEN, claims_now, put, run, started
from lib.standards import RFC7515_KEY
from lib.texts import key_set, oct_key, signed
from lib.trial import check

# The seconds that a service gives a client, and how much later the others may be answered on a machine that is busy.
DEADLINE, MARGIN = 10, 20
# How many descriptors are left for connections, all of which slow clients take. Such a client sends something in each PAUSE seconds.
CONNECTIONS, PAUSE = 60, 4
# After so many seconds a service that waits for a file is said to hang.
HANGS = 30
NEW_KEY = oct_key(bytes(range(64)), alg="HS256")


def bearer(**options):
    return f"Bearer {signed(json.dumps(claims_now()).encode(), **options).decode()}"


def answer_to(port, lines, timeout=60):
    """The status, the challenge and the body of the answer to a request with these lines, or the failure."""
    try:
        with socket.create_connection(("127.0.0.1", port), timeout=timeout) as peer:
            peer.sendall(b"\r\n".join([b"GET / HTTP/1.1", b"Host: localhost", b"Connection: close", *lines, b"", b""]))
            answer = http.client.HTTPResponse(peer)
            answer.begin()
            body = answer.read()
        return answer.status, answer.getheader("WWW-Authenticate"), json.loads(body) if answer.status != 400 else body
    except (OSError, ValueError, http.client.HTTPException) as failure:
        return failure


def answers(port, *credentials, timeout=60):
    """The status for each of these credentials, or the failure."""
    found = [answer_to(port, [b"Authorization: " + it.encode()], timeout) for it in credentials]
    return [it[0] if isinstance(it, tuple) else it for it in found]


# ---- a log that cannot be written


def lost_logs():
    """How a log and a standard output cannot be written: each gives the descriptor for both, and what to do when the service has its port."""
    reader, writer = os.pipe()
    os.close(reader)
    yield "nobody reads them", writer, lambda: None
    yield "the disk is full", os.open("/dev/full", os.O_WRONLY), lambda: None
    reader, writer = os.pipe()
    yield "their reader ends", writer, lambda: os.close(reader)


def serves_without_log(built, folder):
    """Starts the service with a log that cannot be written. Everything that writes a line must be answered as with one."""
    problems, old, new, forged = [], bearer(), bearer(key=NEW_KEY), bearer(key=oct_key(bytes(64)))
    for what, log, change in lost_logs():
        put(folder, RFC7515_KEY)
        with socket.create_server(("127.0.0.1", 0)) as free:
            port = free.getsockname()[1]
        words = [str(it) for it in [*(built.faulty or built.service), "service.jwk", port, ISSUER, AUDIENCE]]
        process = subprocess.Popen(words, stdout=log, stderr=log, cwd=folder, env=built.environment)
        os.close(log)

        def expect(step, credentials, wanted):
            found = answers(port, *credentials)
            problems.extend([f"{what}, {step}: {found}, and not {wanted}"] * (found != wanted))

        try:
            for _ in range(600):
                with contextlib.suppress(OSError), socket.create_connection(("127.0.0.1", port)):
                    break
                if process.poll() is not None:
                    break
                time.sleep(0.1)
            change()
            expect("its first request", [old], [200])
            expect("bad tokens", [forged, "Bearer x", forged, old], [401, 401, 401, 200])
            if built.faulty:
                expect("faults", ["Bearer FAULT.FAULT.00004", "Bearer FAULT.FAULT.00013", old], [500, 500, 200])
            put(folder, key_set(RFC7515_KEY, NEW_KEY))
            expect("new keys", [new, old, forged], [200, 200, 401])
            for broken in b"{", b'{"kty":"RSA"}':
                put(folder, broken)
                expect("broken keys", [new, old, forged], [200, 200, 401])
            (folder / "service.jwk").unlink()
            expect("no file", [new, old], [200, 200])
            put(folder, NEW_KEY)
            expect("the new key alone", [old, new], [401, 200])
            problems += [f"{what}: it ended with {process.returncode}"] * (process.poll() is not None)
        finally:
            process.kill()
            process.wait()
    check(f"{built.name}: the service answers if its log and its output cannot be written", problems[:5])


# ---- empty expectations


def refuses_empty_expectations(built, folder):
    problems = []
    put(folder, RFC7515_KEY)
    for expected in ("", AUDIENCE), (ISSUER, ""), ("", ""):
        with started(built.service, folder, built.environment, issuer=expected[0], audience=expected[1]) as (port, process, errors):
            line = r"token-service(\.py)?: the issuer and the audience must not be empty\n"
            if port or process.returncode != 1 or not re.fullmatch(line, errors()):
                problems.append(f"{expected}: {port}, {process.returncode}, {errors()[-300:]!r}")
    check(f"{built.name}: the service does not start with an empty issuer or audience", problems)


OPTIONS = """
const assert = require("node:assert"), { claimsOf } = require(process.argv[1]), token = Buffer.from(process.argv[2]), payload = Buffer.from(process.argv[3]);
const check = (expected, now = 1800000000) => claimsOf(token, payload, now, expected);
assert.equal(check({ issuer: "login", audience: "api", leeway: 60 }).sub, "ann");
const right = { issuer: "login", audience: "api", leeway: 60 };
for (const wrong of [
    { leeway: "30" }, { leeway: NaN }, { leeway: Infinity }, { leeway: -1 }, { leeway: null }, { leeway: true }, { leeway: undefined }, { leeway: 30n },
    { isuer: "login" }, { iss: "login" }, { aud: "api" }, { Leeway: 30 }, { toString: "login" }, { typ: "" }, { typ: "application/" }, { typ: "Application/" },
    { issuer: "" }, { issuer: undefined }, { issuer: null }, { issuer: ["login"] }, { issuer: 7 }, { issuer: Object("login") },
    { audience: "" }, { audience: undefined }, { audience: ["api"] }, { typ: 7 },
]) assert.throws(() => check({ ...right, ...wrong }), TypeError);
class Settings { get issuer() { return undefined; } }
for (const wrong of [Object.create({ isuer: "login" }), Object.create({ issuer: "" }), new Settings(), ["login"], "login", 7, null]) assert.throws(() => check(wrong), TypeError);
for (const now of [NaN, Infinity, "1800000000", null, 1800000000n]) assert.throws(() => check({ audience: "api", leeway: 60 }, now), TypeError);
"""
ARGUMENTS = """
import sys
from claims import claims_of
token, payload = (it.encode() for it in sys.argv[1:])
right = {"issuer": "login", "audience": "api", "leeway": 60}
assert claims_of(token, payload, 1800000000, **right)["sub"] == "ann"
texts = "", b"login", 7, True, ["login"], ("login",)
wrong = [{"issuer": it} for it in texts] + [{"audience": it} for it in texts] + [{"typ": it} for it in (*texts, "application/", "Application/")]
wrong += [{"leeway": it} for it in ("30", None, True, -1, float("nan"), float("inf"))] + [{"isuer": "login"}]
wrong += [{"now": it} for it in ("1800000000", None, True, float("nan"), float("inf"))]
for one in wrong:
    try:
        claims_of(token, payload, **{"now": 1800000000} | right | one)
    except TypeError:
        continue
    sys.exit(f"{one} is accepted")
"""


def refuses_options(built):
    """Calls the functions of the languages that look at no types with wrong arguments. The token is valid for some of them."""
    payload = b'{"iss":"login","aud":"api","sub":"ann","exp":1900000000,"nbf":1800000060}'
    words = {"Node": ["node", "-e", OPTIONS, EXAMPLES / "node/claims.js"], "Python": [*built.judge[:1], "-c", ARGUMENTS]}[built.name]
    status, printed = run(*words, signed(payload).decode(), payload.decode(), env=built.environment)
    check(f"{built.name}: arguments of a wrong kind, empty ones and misspelt ones are a TypeError", [printed[-1500:]] if status else [])


# ---- several headers


def takes_one_header(built, folder):
    put(folder, RFC7515_KEY)
    good, bad = bearer().encode(), bearer(key=NEW_KEY).encode()
    with started(built.service, folder, built.environment) as (port, _, errors):
        if not port:
            return check(f"{built.name}: the service starts", [errors()])
        problems = []

        def expect(lines, *wanted):
            found = answer_to(port, lines)
            seen = found if found in wanted or not isinstance(found, tuple) else found[0]
            problems.extend([f"{lines}: {found}, and not {wanted}".replace(good.decode(), "GOOD").replace(bad.decode(), "BAD")] * (seen not in wanted))

        expect([b"Authorization: " + good], (200, None, {"you": "web-7"}))
        expect([b"X-Authorization: " + bad, b"Authorization: " + good, b"Proxy-Authorization: " + bad], (200, None, {"you": "web-7"}))
        expect([b"Authorization:"], NO_TOKEN)
        for pair in (good, good), (b"", good), (good, b""), (b"", b""), (b" ", good), (good, bad), (bad, good), (b"Basic eA==", good), (good, b"Basic eA=="):
            for names in (b"Authorization", b"Authorization"), (b"authorization", b"AUTHORIZATION"):
                lines = [name + b": " + value for name, value in zip(names, pair)]
                expect(lines, BAD_TOKEN)
                expect([lines[0], b"X: a", lines[1]], BAD_TOKEN)
        expect([b"Authorization: " + it for it in (b"", b"", good)], BAD_TOKEN)
        # A carriage return alone ends no line, but some programs see a line behind it. Node and Go answer 400.
        for lines in (
            [b"X: a\rAuthorization: " + good], [b"Authorization: " + good, b"X: a\rAuthorization: " + bad], [b"Authorization: " + good + b"\rX: a"],
            [b"Authorization: " + good, b"X: a\r"], [b"Authorization: \r" + good], [b"X: a\r\rAuthorization: " + good], [b"Authorization: " + good, b"X: \rb"],
        ):
            expect(lines, 400, 401)
        check(f"{built.name}: a request with several headers Authorization, or with a bare carriage return, is refused", problems[:5])


# ---- files of keys


def notices_kept_times(built, folder):
    """Writes other keys of the same length into the same file, which gets back its time."""
    keys = [oct_key(bytes([number]) * 64, alg="HS256") for number in range(4)]
    file, other, credentials = folder / "service.jwk", folder / "other.jwk", [bearer(key=key) for key in keys]
    put(folder, keys[0])
    before = file.stat()

    def in_place(key):
        with open(file, "r+b") as stream:
            stream.write(key)
        os.utime(file, ns=(before.st_atime_ns, before.st_mtime_ns))

    def copied(key):
        other.write_bytes(key)
        os.utime(other, ns=(before.st_atime_ns, before.st_mtime_ns))
        subprocess.run(["cp", "-p", other, file], check=True)

    def renamed(key):
        other.write_bytes(key)
        os.utime(other, ns=(before.st_atime_ns, before.st_mtime_ns))
        os.replace(other, file)

    with started(built.service, folder, built.environment) as (port, _, errors):
        if not port:
            return check(f"{built.name}: the service starts", [errors()])
        problems = []
        for at, (what, write) in enumerate({"at its start": None, "written in place": in_place, "by cp -p": copied, "renamed": renamed}.items()):
            if write:
                write(keys[at])
            now = file.stat()
            problems += [f"{what}: the trial changed the length or the time"] * ((now.st_size, now.st_mtime_ns) != (before.st_size, before.st_mtime_ns))
            problems += [f"{what}: the trial made a new file"] * (what != "renamed" and now.st_ino != before.st_ino)
            found, wanted = answers(port, *credentials), [200 if number == at else 401 for number in range(4)]
            problems += [f"{what}: {found}, and not {wanted}"] * (found != wanted)
        check(f"{built.name}: the service notices keys that are written with the length and the time of the old ones", problems)


def refuses_what_is_no_file(built, folder):
    """Puts a pipe and a terminal, which would wait for ever, and a folder in place of the file of keys, at the start and later."""
    controller, terminal = os.openpty()
    old, new, problems = bearer(), bearer(key=NEW_KEY), []

    def pipe(place):
        os.mkfifo(place)

    def device(place):
        place.symlink_to(os.ttyname(terminal))

    for what, make in ("a pipe", pipe), ("a terminal", device), ("a folder", pathlib.Path.mkdir):
        # Python's open has a message of its own for a folder.
        strange, cause = folder / "strange", "" if what == "a folder" else "no regular file"
        make(strange)
        process = subprocess.Popen([str(it) for it in [*built.service, "strange", "0", ISSUER, AUDIENCE]], stdout=subprocess.PIPE, stderr=subprocess.STDOUT, cwd=folder, env=built.environment)
        try:
            printed = process.communicate(timeout=HANGS)[0].decode()
            right = process.returncode == 1 and re.fullmatch(r"token-service(\.py)?: .*strange.*\n", printed) and cause in printed
            problems += [f"{what} at the start: {process.returncode}, {printed!r}"] * (not right)
        except subprocess.TimeoutExpired:
            problems.append(f"{what} at the start: it hangs")
        finally:
            process.kill()
            process.communicate()
        put(folder, RFC7515_KEY)
        with started(built.service, folder, built.environment) as (port, _, errors):
            if not port:
                return check(f"{built.name}: the service starts", [errors()])
            problems += [f"{what}: it does not start"] * (answers(port, old) != [200])
            (folder / "service.jwk").unlink()
            strange.rename(folder / "service.jwk")
            found = [answer for _ in range(2) for answer in answers(port, old, new, timeout=HANGS)]
            problems += [f"{what} later: {found}"] * (found != [200, 401] * 2)
            problems += [f"{what} later: it is logged as {errors()[-200:]!r}"] * ("is not read again" not in errors() or cause not in errors())
            (folder / "service.jwk").rename(strange)
            if found == [200, 401] * 2:
                put(folder, NEW_KEY)
                found = answers(port, old, new, timeout=HANGS)
                problems += [f"a file after {what}: {found}"] * (found != [401, 200])
        strange.rmdir() if strange.is_dir() else strange.unlink()
    os.close(controller), os.close(terminal)
    check(f"{built.name}: a pipe, a terminal and a folder in place of the keys are refused at once", problems)


# ---- slow clients


async def send_slowly(port, kind):
    """Sends a request slowly and without an end, until the service ends the connection. An idle client sends one request and no other."""
    head = f"GET / HTTP/1.1\r\nHost: localhost\r\nAuthorization: {bearer()}\r\n"
    first, more = {"head": (head, "X: a\r\n"), "body": (f"{head}Content-Length: 100000\r\n\r\n", "a\r\n"), "idle": (f"{head}\r\n", "")}[kind]
    with contextlib.suppress(OSError):
        _, writer = await asyncio.open_connection("127.0.0.1", port)
        try:
            writer.write(first.encode())
            while True:
                await asyncio.sleep(PAUSE)
                writer.write(more.encode())
                await writer.drain()
        finally:
            writer.close()


def status_of(answer):
    return (answer.split(b" ") + [b""])[1]


async def seconds_to_answer(port, process):
    """The seconds until a good request is answered. One whose connection is refused or ended is sent again: Node ends those for which it has no
    descriptor."""
    began, good = time.monotonic(), bearer()
    while time.monotonic() - began < DEADLINE + MARGIN and process.poll() is None:
        with contextlib.suppress(OSError, asyncio.TimeoutError):
            reader, writer = await asyncio.open_connection("127.0.0.1", port)
            try:
                writer.write(f"GET / HTTP/1.1\r\nHost: localhost\r\nConnection: close\r\nAuthorization: {good}\r\n\r\n".encode())
                answer = await asyncio.wait_for(reader.read(), DEADLINE + MARGIN - (time.monotonic() - began))
                if status_of(answer) == b"200":
                    return time.monotonic() - began
            finally:
                writer.close()
        await asyncio.sleep(0.2)
    return None


async def in_pieces(port):
    """The status of the answer to a good request that comes in pieces, but in time."""
    reader, writer = await asyncio.open_connection("127.0.0.1", port)
    head = f"GET / HTTP/1.1\r\nHost: localhost\r\nConnection: close\r\nAuthorization: {bearer()}\r\n\r\n".encode()
    try:
        for part in head[:30], head[30:70], head[70:-3], head[-3:]:
            writer.write(part)
            await writer.drain()
            await asyncio.sleep(0.5)
        return status_of(await reader.read())
    except OSError as failure:
        return failure
    finally:
        writer.close()


async def bears(built, kind):
    """What is wrong with the service while slow clients of this kind take all its descriptors."""
    with tempfile.TemporaryDirectory() as name:
        folder = pathlib.Path(name)
        put(folder, RFC7515_KEY)
        with started(built.service, folder, built.environment) as (port, process, errors):
            if not port:
                return [errors()]
            first, problems = await in_pieces(port), []
            problems += [f"{kind} in pieces: {first}"] * (first != b"200")
            folder = pathlib.Path(f"/proc/{process.pid}/fd")
            most = len(list(folder.iterdir())) + CONNECTIONS
            resource.prlimit(process.pid, resource.RLIMIT_NOFILE, (most, most))
            clients = [asyncio.ensure_future(send_slowly(port, kind)) for _ in range(CONNECTIONS + 5)]
            # A service that ends each connection after its answer has free descriptors beside the other kinds.
            for _ in range(20 if kind == "head" else 8):
                await asyncio.sleep(0.25)
                free = most - len(list(folder.iterdir()))
                if free <= 1:
                    break
            problems += [f"{kind}: the trial left {free} descriptors"] * (kind == "head" and free > 1)
            taken = await seconds_to_answer(port, process)
            problems += [f"{kind}: no answer after {DEADLINE + MARGIN} seconds, {errors()[-200:]!r}"] * (taken is None)
            for client in clients:
                client.cancel()
            await asyncio.gather(*clients, return_exceptions=True)
            return problems


def answers_beside_slow_clients(all_built):
    """Lets slow clients take all descriptors of each service, in all languages at once. A good request must be answered when their time is over."""
    async def all_of_them():
        return await asyncio.gather(*(bears(built, kind) for built in all_built for kind in ("head", "body", "idle")))

    found = asyncio.run(all_of_them())
    for at, built in enumerate(all_built):
        check(f"{built.name}: slow clients do not stop the service", [it for problems in found[3 * at:3 * at + 3] for it in problems])


def try_all(all_built):
    for built in all_built:
        with tempfile.TemporaryDirectory() as folder:
            for trial in serves_without_log, refuses_empty_expectations, takes_one_header, notices_kept_times, refuses_what_is_no_file:
                trial(built, pathlib.Path(folder))
        if built.name in ("Node", "Python"):
            refuses_options(built)
    answers_beside_slow_clients(all_built)
