"""Tries what examples/ has for services, with an installed library: the judges of claims in Python, Go, Rust, C and JavaScript with the cases of
examples/claims/cases.json, and the web services in these languages with tokens that Python's hmac signed. The code that the pages for services show
is compared with the examples, or run.
"""
import asyncio, concurrent.futures, contextlib, http.client, json, os, pathlib, re, resource, shutil, subprocess, sys, tempfile, time

from lib.standards import RFC7515_KEY
from lib.texts import b64, flattened, key_set, oct_key, octets_of, signed
from lib.trial import PROGRAM, TOP, check, left_out

EXAMPLES, JUDGES = TOP / "examples", TOP / "scripts/lib/claims"
MODULE = "lakhdzeva.example/lakhdzeva/v3"
# Where Debian puts the sources of crates.
DEBIAN_CRATES = pathlib.Path("/usr/share/cargo/registry")
ISSUER, AUDIENCE = "login", "api"
STRICT = ["-std=gnu11", "-Wall", "-Wextra", "-Wpedantic", "-Wconversion", "-Werror"]
AT_ONCE = 1000


class Built:
    """What was built of a language: the words of the judge and of the service, their environment, and what makes a library that refuses."""

    def __init__(self, name, judge, service, environment, faulty=None):
        self.name, self.judge, self.service, self.environment, self.faulty = name, judge, service, environment, faulty


def run(*words, **options):
    done = subprocess.run([str(it) for it in words], stdout=subprocess.PIPE, stderr=subprocess.STDOUT, text=True, **options)
    return done.returncode, done.stdout


def shows(what, *words, **options):
    status, printed = run(*words, **options)
    check(what, [] if status == 0 else [f"status {status}, {printed[-3000:]}"])
    return status == 0


# ---- each language


def in_python(environment):
    environment = environment | {"PYTHONPATH": f"{environment['PYTHONPATH']}:{EXAMPLES}/python"}
    service = [sys.executable, EXAMPLES / "python/token-service.py"]
    yield Built("Python", [sys.executable, JUDGES / "judge.py"], service, environment, [sys.executable, JUDGES / "false_service.py", service[1]])


def in_c(work, usr, environment):
    if not shutil.which("cc") or not shutil.which("pkg-config"):
        return left_out("the service in C", "there is no pkg-config or no cc")
    if run("pkg-config", "--exists", "jansson")[0]:
        return left_out("the service in C", "there is no jansson (libjansson-dev)")
    flags = run("pkg-config", "--cflags", "--libs", "lakhdzeva", "jansson", env=environment)[1].split()
    judge, service, false = work / "judge-c", work / "service-c", work / "false_verify.so"
    sanitized = [*STRICT, "-O1", "-g", "-fsanitize=address,undefined", "-fno-sanitize-recover=all"]
    claims = [f"-I{EXAMPLES}/c", EXAMPLES / "c/claims.c"]
    built = [
        shows("claims.c compiles, with the sanitizers", "cc", *sanitized, JUDGES / "judge.c", *claims, *flags, "-o", judge),
        shows("token-service.c compiles", "cc", *STRICT, "-O2", EXAMPLES / "c/token-service.c", *claims, *flags, "-pthread", "-o", service),
        shows("a library that refuses compiles", "cc", *STRICT, "-shared", "-fPIC", JUDGES / "false_verify.c", *flags, "-ldl", "-o", false),
    ]
    secrets = work / "secrets-c"
    if shows("key_of_secret.c compiles, with the sanitizers", "cc", *sanitized, JUDGES / "keys_of_secrets.c", EXAMPLES / "c/key_of_secret.c", *flags, "-o", secrets):
        wanted = []
        for length in range(100):
            key = {"kty": "oct", "alg": "HS256", "k": b64(bytes((at * 37 + 251 + length) % 256 for at in range(length))).decode()}
            wanted.append(f"{json.dumps(key, separators=(',', ':'))}\t{0 if length else 9}\t{2 * (length >= 32)}")
        printed = run(secrets, env=environment)[1].splitlines()
        check(f"key_of_secret.c makes the keys of {len(wanted)} secrets", [f"{it}, and not {other}" for it, other in zip(printed, wanted) if it != other][:3] + [f"{len(printed)} lines"] * (len(printed) != len(wanted)))
    if all(built):
        yield Built("C", [judge], [service], environment, ["env", f"LD_PRELOAD={false}", service])


def in_go(work, usr, environment):
    if not shutil.which("go") or not shutil.which("pkg-config"):
        return left_out("the service in Go", "there is no go or no pkg-config")
    environment = environment | {"GOCACHE": str(work / "go"), "GOTOOLCHAIN": "local", "GOFLAGS": "-mod=mod", "GOPROXY": "off"}
    folders = {"service": work / "service-go", "judge": work / "judge-go"}
    for name, folder in folders.items():
        shutil.copytree(EXAMPLES / "go/token-service", folder)
        run("go", "mod", "edit", f"-replace={MODULE}={usr}/share/lakhdzeva/go", env=environment, cwd=folder)
    (folders["judge"] / "main.go").unlink()
    shutil.copy(JUDGES / "judge.go", folders["judge"])
    built = [shows(f"go builds the {name} outside of the repository", "go", "build", "-o", folder / name, env=environment, cwd=folder) for name, folder in folders.items()]
    built.append(shows("go vet finds nothing in the service", "go", "vet", "./...", env=environment, cwd=folders["service"]))
    if all(built):
        service, false = folders["service"] / "service", work / "false_verify_go.so"
        flags = run("pkg-config", "--cflags", "--libs", "lakhdzeva", env=environment)[1].split()
        faulty = shutil.which("cc") and shows("a library that refuses compiles", "cc", *STRICT, "-shared", "-fPIC", JUDGES / "false_verify.c", *flags, "-ldl", "-o", false)
        yield Built("Go", [folders["judge"] / "judge"], [service], environment, ["env", f"LD_PRELOAD={false}", service] if faulty else None)


def in_rust(work, usr, environment):
    if not shutil.which("cargo"):
        return left_out("the service in Rust", "there is no cargo")
    folder = work / "service-rust"
    shutil.copytree(EXAMPLES / "rust/token-service", folder)
    shutil.copy(JUDGES / "judge.rs", folder / "src/judge.rs")
    manifest = (folder / "Cargo.toml").read_text().replace("/usr/local/share/lakhdzeva/rust", f"{usr}/share/lakhdzeva/rust")
    (folder / "Cargo.toml").write_text(manifest + '\n[[bin]]\nname = "token-service"\npath = "src/main.rs"\n[[bin]]\nname = "judge"\npath = "src/judge.rs"\n')
    if list(DEBIAN_CRATES.glob("serde_json-*")):
        (folder / ".cargo").mkdir()
        (folder / ".cargo/config.toml").write_text(
            f'[source.crates-io]\nreplace-with = "debian"\n[source.debian]\ndirectory = "{DEBIAN_CRATES}"\n')
    environment = environment | {"LAKHDZEVA_LIB_DIR": f"{usr}/lib", "CARGO_TARGET_DIR": str(work / "rust-service")}
    if run("cargo", "generate-lockfile", "--offline", "--quiet", env=environment, cwd=folder)[0]:
        return left_out("the service in Rust", "there is no serde_json (librust-serde-json-dev)")
    if not shows("cargo builds the service outside of the repository", "cargo", "build", "--offline", "--quiet", env=environment, cwd=folder):
        return
    made, service, false, faulty = work / "rust-service/debug/token-service", work / "service-rust-bin", work / "false_verify.o", None
    shutil.copy(made, service)
    if shutil.which("cc") and shows("a verify that refuses compiles", "cc", *STRICT, "-DWRAPPED", f"-I{usr}/include", "-c", JUDGES / "false_verify.c", "-o", false):
        wrapped = [f"-Clink-arg={false}", "-Clink-arg=-Wl,--wrap=lakhdzeva_verify"]
        faulty = [made] * shows("cargo links it", "cargo", "rustc", "--offline", "--quiet", "--bin", "token-service", "--", *wrapped, env=environment, cwd=folder)
    yield Built("Rust", [work / "rust-service/debug/judge"], [service], environment, faulty)


def node_module(here, environment):
    """Copies examples/node, and builds its module there. Returns whether it is built."""
    headers = [it for it in (pathlib.Path("/usr/include/node"), pathlib.Path("/usr/include/nodejs/src")) if (it / "node_api.h").exists()]
    if not shutil.which("node") or not headers or not shutil.which("pkg-config") or not shutil.which("cc"):
        return left_out("the module for Node", "there is no node with its headers (libnode-dev), no pkg-config or no cc")
    shutil.copytree(EXAMPLES / "node", here)
    flags = run("pkg-config", "--cflags", "--libs", "lakhdzeva", env=environment)[1].split()
    words = ["-O2", "-Wall", "-Wextra", "-Wpedantic", "-Werror", "-shared", "-fPIC", f"-I{headers[0]}", "lakhdzeva.c", "-o", "lakhdzeva.node", *flags]
    return shows("the module for Node compiles", "cc", *words, cwd=here)


def in_node(work, usr, environment):
    here, false = work / "node-claims", work / "false_verify_node.so"
    if node_module(here, environment):
        service = ["node", here / "token-service.js"]
        flags = run("pkg-config", "--cflags", "--libs", "lakhdzeva", env=environment)[1].split()
        faulty = shows("a library that refuses compiles, for Node", "cc", *STRICT, "-shared", "-fPIC", JUDGES / "false_verify.c", *flags, "-ldl", "-o", false)
        yield Built("Node", ["node", JUDGES / "judge.js", here / "lakhdzeva.node"], service, environment, ["env", f"LD_PRELOAD={false}", *service] if faulty else None)


# ---- claims


def cases():
    """The cases of the file, and one that is too long for it, each with its line for a judge."""
    found = json.loads((EXAMPLES / "claims/cases.json").read_text())
    deep = {"case": "20,000 lists in each other", "payload": '{"exp":1900000000,"x":' + "[" * 20000 + "]" * 20000 + "}", "expected": {}, "now": 1800000000,
            "answer": "claims", "pyjwt": "fails", "because": "it raises a RecursionError"}
    for case in [*found, deep]:
        payload = bytes.fromhex(case["octets"]) if "octets" in case else case["payload"].encode()
        header = json.dumps({"alg": "HS256", **case.get("header", {})}, separators=(",", ":"), ensure_ascii=False).encode()
        token = signed(payload, header)
        if case.get("form"):
            token = flattened(token)
        if case.get("form") == "general":
            parts = json.loads(token)
            token = json.dumps({"payload": parts.pop("payload"), "signatures": [parts]}, separators=(",", ":")).encode()
        expected = case["expected"]
        fields = [case["now"], expected.get("leeway", 0), *(expected.get(name, "-") for name in ("iss", "aud", "typ")), token.decode()]
        yield case, "\t".join(map(str, fields))


def judged(words, keys, lines, environment):
    done = subprocess.run([*words, keys], input="".join(f"{line}\n" for line in lines).encode(), capture_output=True, env=environment)
    return done.stdout.decode().split("\n")[:-1], done.stderr.decode()[-500:]


def allowed(case):
    return case["answer"] if isinstance(case["answer"], list) else [case["answer"]]


def try_claims(built):
    all_cases = list(cases())
    lines = [line for _, line in all_cases]
    answers, errors = judged(built.judge, RFC7515_KEY.decode(), lines, built.environment)
    problems = [f"{len(answers)} answers, {errors}"] * (len(answers) != len(lines))
    problems += [f"{case['case']}: {answer}, and not {case['answer']}" for (case, _), answer in zip(all_cases, answers) if answer not in allowed(case)]
    check(f"{built.name}: the claims of {len(lines)} tokens", problems[:8])


def try_pyjwt():
    """Compares PyJWT with the cases. Each difference must be in the file, with its reason."""
    pythons = [it for it in (sys.executable, "/usr/bin/python3") if run(it, "-c", "import jwt; assert jwt.__version__.startswith('2.6.')")[0] == 0]
    if not pythons:
        return left_out("the claims by PyJWT", "there is no PyJWT 2.6 (python3-jwt)")
    all_cases = list(cases())
    key = octets_of(json.loads(RFC7515_KEY)["k"].encode()).hex()
    answers, errors = judged([pythons[0], JUDGES / "judge_pyjwt.py"], key, [line for _, line in all_cases], dict(os.environ))
    problems = [f"{len(answers)} answers, {errors}"] * (len(answers) != len(all_cases))
    for (case, _), answer in zip(all_cases, answers):
        if answer not in ([case["pyjwt"]] if "pyjwt" in case else allowed(case)):
            problems.append(f"{case['case']}: {answer}, and not {case.get('pyjwt', case['answer'])}")
        if "pyjwt" in case and (not case.get("because") or case["pyjwt"] in allowed(case)):
            problems.append(f"{case['case']}: no difference, or no reason")
    check(f"PyJWT: the claims of {len(all_cases)} tokens, with {sum('pyjwt' in it for it, _ in all_cases)} differences that are explained", problems[:8])


def check_lengths():
    """Checks that the judge of each language is one function of at most fifty lines, and that the page shows Python's."""
    begins = {"python/claims.py": r"^def claims_of.*?(?=\n\n\n|\Z)", "go/token-service/claims.go": r"^func claimsOf.*?^}", "rust/token-service/src/claims.rs": r"^pub fn claims_of.*?^}",
              "c/claims.c": r"^const char \*claims_of.*?^}", "node/claims.js": r"^function claimsOf.*?^}"}
    for name, pattern in begins.items():
        found = re.search(pattern, (EXAMPLES / name).read_text(), re.M | re.S)
        lines = found[0].rstrip().count("\n") + 1 if found else 0
        check(f"{name}: a function of {lines} lines", [] if 10 < lines <= 50 else ["it has 50 lines at most"])
    text = (EXAMPLES / "python/claims.py").read_text()
    shown = re.search(r"^def claims_of.*", text, re.M | re.S)[0].strip()
    page = (TOP / "docs/SERVICES.md").read_text()
    check("docs/SERVICES.md shows the function of claims.py", [] if shown in page else ["it shows another one"])


# ---- pages

# Where the code of a page comes from, by the language of its block: files that are built and run. Python's runs as it is.
BLOCKS = {
    "go": ["examples/go/token-service/*.go", "bindings/go/example_test.go"], "rust": ["examples/rust/token-service/src/*.rs", "bindings/rust/examples/*.rs"],
    "c": ["examples/c/*.c"], "js": ["examples/node/*.js"]}


def blocks_of(page):
    """The blocks of code of a page, each with its language."""
    return re.findall(r"^```(\w+)\n(.*?)^```$", (TOP / page).read_text(), re.M | re.S)


def check_blocks():
    """Checks that the pages show code of the examples, as it is there."""
    for page in "README.md", "docs/SERVICES.md", "docs/C.md":
        missing = []
        for language, block in blocks_of(page):
            sources = [path.read_text() for pattern in BLOCKS.get(language, []) for path in TOP.glob(pattern)]
            missing += [block.strip().split("\n")[0]] * (language != "python" and not any(block in it for it in sources))
        check(f"{page}: its code is that of the examples", missing)


def python_of(page):
    """The Python of a page as one program: its blocks, or its indented example."""
    indented = re.findall(r"(?:^    .*\n|^\n(?=    ))+", (TOP / page).read_text(), re.M)
    examples = [re.sub(r"^    ", "", it, flags=re.M) for it in indented if "import lakhdzeva" in it]
    return "".join([block for language, block in blocks_of(page) if language == "python"] or examples)


def try_blocks(environment):
    """Runs the Python of each page, with a valid and with a forged token. If the page ends at an error, it does so for the forged one."""
    for page in "README.md", "docs/SERVICES.md", "docs/C.md", "bindings/python/README.md":
        program = python_of(page)
        good = token(claims_now())
        for what, received, wanted in ("a valid", good, 0), ("a forged", good[:-4] + "AAAA", 1):
            if wanted and 'raise SystemExit(f"not accepted' not in program:
                continue
            with tempfile.TemporaryDirectory() as folder:
                for name, octets in ("sign.jwk", RFC7515_KEY), ("service.jwk", RFC7515_KEY), ("deploy.jws", received.encode()):
                    (pathlib.Path(folder) / name).write_bytes(octets)
                head = f"import lakhdzeva\nsecret, token = {'6a' * 32!r}, {received.encode()!r}\n"
                status, printed = run(sys.executable, "-c", head + program, cwd=folder, env=environment)
            right = program and status == wanted and "Traceback" not in printed
            check(f"{page}: its Python with {what} token", [] if right else [f"status {status}, {printed[-500:]}"])


# ---- services


def answer_of(port, credentials):
    """The status of the service, its challenge and what it answers. The credentials are sent as they are, and none are if they are None."""
    connection = http.client.HTTPConnection("127.0.0.1", port, timeout=60)
    try:
        connection.request("GET", "/", headers={} if credentials is None else {"Authorization": credentials})
        answer = connection.getresponse()
        return answer.status, answer.getheader("WWW-Authenticate"), json.loads(answer.read())
    finally:
        connection.close()


NO_TOKEN = 401, "Bearer", {"error": "no token"}
BAD_TOKEN = 401, 'Bearer error="invalid_token"', {"error": "no valid token"}
FAULT = 500, None, {"error": "the service has a fault"}


def claims_now(**more):
    now = time.time()
    return {"iss": ISSUER, "aud": AUDIENCE, "sub": "web-7", "exp": now + 3600.5, "nbf": now - 1, **more}


def token(claims, **options):
    return signed(json.dumps(claims).encode(), **options).decode()


def credentials_tried():
    """The credentials that the service gets, each with its answer. None of them is answered otherwise."""
    now, right = time.time(), claims_now()
    good = token(right)
    header, payload, signature = good.split(".")
    for scheme in "Bearer ", "bearer ", "BEARER ", "bEaReR  ":
        yield scheme + good, (200, None, {"you": "web-7"})
    # The clocks differ by some seconds.
    for more in {"nbf": now + 5}, {"nbf": 0}, {"exp": now - 5}, {"exp": 9000000000}, {"aud": ["web", AUDIENCE]}, {"iat": "no number"}, {"sub": ""}, {"sub": "\u00e9\"\n"}:
        yield f"Bearer {token(right | more)}", (200, None, {"you": (right | more)["sub"]})
    for name in "iss", "aud", "sub", "exp":
        yield f"Bearer {token({it: value for it, value in right.items() if it != name})}", BAD_TOKEN
    for claims in (
        right | {"exp": 1000000000}, right | {"exp": now - 60}, right | {"nbf": now + 3600}, right | {"aud": "web"}, right | {"aud": ["web"]}, right | {"iss": "another"},
        [right], "web-7", 7, None, [], {}, *[right | {"sub": it} for it in (None, 7, True, ["web-7"], {"web-7": 1})],
        *[right | {"exp": it} for it in (None, True, "9000000000", [9000000000], {}, float("nan"), -(10**300))],
    ):
        yield f"Bearer {token(claims)}", BAD_TOKEN
    # The right token in JSON form, which is no JWT, and with 256 headers that nobody signed.
    yield f"Bearer {flattened(good.encode()).decode()}", BAD_TOKEN
    many = {"payload": payload, "signatures": [{"protected": header, "header": {"n": number}, "signature": signature} for number in range(20)]}
    yield f"Bearer {json.dumps(many, separators=(',', ':'))}", BAD_TOKEN
    # Right, but longer than the service looks at. Then claims that are no object.
    yield f"Bearer {token(right | {'x': 'x' * 4000})}", BAD_TOKEN
    for part in "[" * 2900, '{"a":' * 600, "9" * 2900, "\xff":
        yield f"Bearer {signed(part.encode('latin-1')).decode()}", BAD_TOKEN
    # Changed and truncated at many places.
    for place in range(0, len(good), 7):
        yield f"Bearer {good[:place]}{'A' if good[place] != 'A' else 'B'}{good[place + 1:]}", BAD_TOKEN
        yield f"Bearer {good[:place]}", BAD_TOKEN
    # Forged by another key, by a key for another algorithm, and by none.
    other = oct_key(bytes(range(64)))
    yield f"Bearer {signed(json.dumps(right).encode(), key=other).decode()}", BAD_TOKEN
    for alg in "HS512", "RS256", "none", "A256KW":
        yield f"Bearer {token(right, header=json.dumps({'alg': alg}).encode())}", BAD_TOKEN
    yield f"Bearer {b64(b'{').decode()}.{payload}.{signature}", BAD_TOKEN
    yield f"Bearer {b64(b'''{'alg':'none'}''').decode()}.{payload}.", BAD_TOKEN
    for wrong in (
        "Bearer", "Bearer ", "bearer", good, f"Basic {good}", f"Bearer{good}", f"Bearer {good} {good}", f"Bearer {good}.", f"Bearer .{good}", f"Bearer {good}=",
        f"Bearer {header}..{signature}", f"Bearer {good},", f"Bearer \u00e9{good}", "Bearer {}", "Bearer " + "." * 3000, "Bearer " + "a.b" * 1000,
    ):
        yield wrong, BAD_TOKEN
    yield None, NO_TOKEN
    yield "", NO_TOKEN


@contextlib.contextmanager
def started(words, folder, environment, keys="service.jwk", issuer=ISSUER, audience=AUDIENCE):
    """Starts a service. Gives its port, or what it printed if it does not start, and a function that reads its errors."""
    errors = folder / "errors"
    with open(errors, "w") as file:
        process = subprocess.Popen([str(it) for it in [*words, keys, "0", issuer, audience]], stdout=subprocess.PIPE, stderr=file, text=True, cwd=folder, env=environment)
    try:
        line = process.stdout.readline()
        port = re.fullmatch(r"listening on port (\d+)\n", line)
        if not port:
            process.wait(timeout=60)
        yield (int(port[1]) if port else None), process, errors.read_text
    finally:
        process.kill()
        process.wait()
        process.stdout.close()


def useless_keys():
    """Members of a set that may not verify, each of which is valid JSON, and the first three a valid key."""
    return {"a key of 5 bytes": oct_key(bytes(5), alg="HS256"), "a key for encryption": oct_key(bytes(32), alg="A256KW"),
            "a key to sign with": oct_key(bytes(32), alg="HS256", key_ops=["sign"]), "an RSA key": b'{"kty":"RSA"}'}


def refuses_broken_keys(built, folder):
    rows = {"no JSON": b"secret", "cut": RFC7515_KEY[:-9], "no key": b"{}", "an RSA key": b'{"kty":"RSA"}', "a damaged key": RFC7515_KEY[:-9] + b'="}', "an empty set": key_set(),
            "for encryption": oct_key(bytes(32), alg="A256KW"), "no file": None, "65 keys": key_set(*[RFC7515_KEY] * 65)}
    rows |= {f"a set with {what} at 1": key_set(RFC7515_KEY, key, RFC7515_KEY) for what, key in useless_keys().items()}
    problems = []
    for what, keys in rows.items():
        (folder / "broken.jwk").unlink(missing_ok=True)
        if keys is not None:
            (folder / "broken.jwk").write_bytes(keys)
        with started(built.service, folder, built.environment, "broken.jwk") as (port, process, errors):
            if port or process.returncode != 1 or not re.fullmatch(r"token-service(\.py)?: .*broken\.jwk.*\n", errors()) or "Traceback" in errors() \
                    or ("at 1" in what and "at position 1 " not in errors()):
                problems.append(f"{what}: {port}, {process.returncode}, {errors()[-300:]!r}")
    check(f"{built.name}: the service does not start with {len(rows)} kinds of broken keys", problems)


def put(folder, keys):
    """Replaces the file of the keys at once."""
    (folder / "new.jwk").write_bytes(keys)
    os.replace(folder / "new.jwk", folder / "service.jwk")


def reads_again(built, folder):
    """Rotates a key: first both, then the new one alone. Broken keys change nothing."""
    new = oct_key(bytes(range(64)), alg="HS256")
    old_token, new_token = f"Bearer {token(claims_now())}", f"Bearer {signed(json.dumps(claims_now()).encode(), key=new).decode()}"
    put(folder, RFC7515_KEY)
    with started(built.service, folder, built.environment) as (port, _, errors):
        if not port:
            return check(f"{built.name}: the service starts", [errors()])
        problems = []

        def expect(what, old, added):
            answers = [answer_of(port, it)[0] for it in (old_token, new_token)]
            problems.extend([f"{what}: {answers}"] * (answers != [old, added]))

        expect("the old key", 200, 401)
        put(folder, key_set(RFC7515_KEY, new))
        expect("both keys", 200, 200)
        for broken in b"", b"x" * (2 << 20), RFC7515_KEY[:-9], b'{"kty":"RSA"}', oct_key(bytes(32), alg="A256KW"), *(key_set(new, key) for key in useless_keys().values()):
            put(folder, broken)
            said = errors().count("is not read again")
            expect(f"broken keys {broken[:20]}", 200, 200)
            problems += [f"broken keys {broken[:20]} are not logged once"] * (errors().count("is not read again") != said + 1)
        (folder / "service.jwk").unlink()
        expect("no file", 200, 200)
        put(folder, new)
        expect("the new key", 401, 200)
        check(f"{built.name}: the service reads changed keys again, and keeps the old ones if they are broken", problems)


def reads_when_it_can(built, folder):
    """Changes the file of the keys while the service has no descriptor to open it with. It must be read as soon as there is one."""
    new = oct_key(bytes(range(64)), alg="HS256")
    old_token, new_token = f"Bearer {token(claims_now())}", f"Bearer {signed(json.dumps(claims_now()).encode(), key=new).decode()}"
    put(folder, RFC7515_KEY)
    with started(built.service, folder, built.environment) as (port, process, errors):
        if not port:
            return check(f"{built.name}: the service starts", [errors()])
        problems = [] if answer_of(port, old_token)[0] == 200 else ["the old key does not verify"]
        put(folder, key_set(RFC7515_KEY, new))
        # The lowest descriptor that is free is for the connection, and then there is none for the file. First the connection before is closed.
        for _ in range(1000):
            used = {int(it.name): os.readlink(it) for it in pathlib.Path(f"/proc/{process.pid}/fd").iterdir()}
            if sum(it.startswith("socket:") for it in used.values()) == 1:
                break
            time.sleep(0.01)
        most = resource.prlimit(process.pid, resource.RLIMIT_NOFILE)
        resource.prlimit(process.pid, resource.RLIMIT_NOFILE, (min(set(range(len(used) + 1)) - set(used)) + 1, most[1]))
        problems += ["the old keys do not stay"] * (answer_of(port, old_token)[0] != 200)
        resource.prlimit(process.pid, resource.RLIMIT_NOFILE, most)
        problems += ["it does not say that the file is not read"] * ("is not read again" not in errors())
        answers = [answer_of(port, it)[0] for it in (old_token, new_token)]
        problems += [f"the new keys are lost: {answers}"] * (answers != [200, 200])
        check(f"{built.name}: the service reads changed keys as soon as it has a descriptor for the file", problems)


def answers_many(built, port):
    """Many requests at once, each second of which is forged."""
    good, forged = token(claims_now()), token(claims_now(), key=oct_key(bytes(range(64))))
    gate = asyncio.Event()

    async def ask(number):
        credentials = forged if number % 2 else good
        reader, writer = await asyncio.open_connection("127.0.0.1", port)
        await gate.wait()
        writer.write(f"GET / HTTP/1.1\r\nHost: localhost\r\nConnection: close\r\nAuthorization: Bearer {credentials}\r\n\r\n".encode())
        text = await reader.read()
        writer.close()
        return text.split(b"\r\n")[0].split(b" ")[1] == (b"401" if number % 2 else b"200")

    async def all_of_them():
        asked = [asyncio.ensure_future(ask(number)) for number in range(AT_ONCE)]
        await asyncio.sleep(0.5)
        gate.set()
        return await asyncio.wait_for(asyncio.gather(*asked, return_exceptions=True), 120)

    answers = asyncio.run(all_of_them())
    wrong = [it for it in answers if it is not True]
    check(f"{built.name}: the service answers {AT_ONCE} requests at once", [f"{len(wrong)} are wrong, such as {wrong[0]!r}"] if wrong else [])


def answers_refusals(built, folder):
    """Lets the library refuse tokens with each number. Which of them are 500 is the same in each language."""
    if not built.faulty:
        return left_out(f"{built.name}: a library that refuses", "there is no cc")
    put(folder, RFC7515_KEY)
    with started(built.faulty, folder, built.environment) as (port, _, errors):
        problems = [] if port else [errors()]
        for number in range(1, 19) if port else ():
            # A number that has no name is of another version of the library.
            wanted = FAULT if number in (1, 2, 3, 4, 5, 9, 13, 18) else BAD_TOKEN
            answer = answer_of(port, f"Bearer FAULT.FAULT.{number:05}")
            problems += [f"{number}: {answer}, and not {wanted}"] * (answer != wanted)
        check(f"{built.name}: each refusal of the library is 401 or 500, and its cause is not sent", problems)


def try_service(built, folder):
    refuses_broken_keys(built, folder)
    put(folder, RFC7515_KEY)
    (folder / "claims.json").write_text(json.dumps(claims_now()))
    made = subprocess.run([PROGRAM, "jws", "sig", "-c", "-k", "service.jwk", "-I", "claims.json"], capture_output=True, cwd=folder, check=True).stdout.decode()
    with started(built.service, folder, built.environment) as (port, process, errors):
        if not port:
            return check(f"{built.name}: the service starts", [errors()])
        problems, count = [], 0
        for credentials, wanted in [(f"Bearer {made}", (200, None, {"you": "web-7"})), *credentials_tried()]:
            count += 1
            try:
                answer = answer_of(port, None if credentials is None else credentials.encode("latin-1", "replace"))
            except (OSError, ValueError, http.client.HTTPException) as fault:
                answer = fault
            if answer != wanted:
                problems.append(f"{str(credentials)[:60]!r}: {answer}, and not {wanted}")
        # It need not read a header of 100,000 octets to its end.
        with contextlib.suppress(OSError, ValueError, http.client.HTTPException):
            problems += ["a long header is accepted"] * (answer_of(port, f"Bearer {token(claims_now(x='x' * 75000))}")[0] == 200)
        problems += [f"it printed {errors()[-500:]}"] * bool(re.search(r"Traceback|panic|RFC7515|AyM1Sys", errors()))
        check(f"{built.name}: the service accepts right tokens, and nothing else of {count} credentials", problems[:5])
        answers_many(built, port)
        check(f"{built.name}: it still runs", [] if process.poll() is None and answer_of(port, f"Bearer {made}")[0] == 200 else ["it ended"])
    reads_again(built, folder)
    reads_when_it_can(built, folder)
    answers_refusals(built, folder)


@contextlib.contextmanager
def building(work, usr, environment, more):
    """Builds the judges and the services of the languages while other things are tried. Gives a function that waits for them and tries them, with
    the library that is installed in `usr`. The Python package may be installed by then in another folder. Each function of `more` tries all."""
    with concurrent.futures.ThreadPoolExecutor(2) as pool:
        builds = [pool.submit(lambda language: list(language(work, usr, environment)), language) for language in (in_go, in_rust, in_c, in_node)]
        yield lambda environment: try_all(environment, builds, more)


def try_all(environment, builds, more):
    """Tries the judge and the service of each language."""
    resource.setrlimit(resource.RLIMIT_NOFILE, (min(8192, resource.getrlimit(resource.RLIMIT_NOFILE)[1]), resource.getrlimit(resource.RLIMIT_NOFILE)[1]))
    check_lengths()
    check_blocks()
    try_blocks(environment)
    try_pyjwt()
    all_built = [*in_python(environment), *(it for build in builds for it in build.result())]
    for built in all_built:
        with tempfile.TemporaryDirectory() as folder:
            try_claims(built)
            try_service(built, pathlib.Path(folder))
    for trial in more:
        trial(all_built)
