"""Computes the answers of the commands by docs/SPECIFICATION.md. This is a second reading of that page for scripts/hostile,
which compares the program with it.

Each command is a function of whole texts and contents. It returns what is written, or raises `Refused` with the first cause. There is no
cipher here: the plaintext of an object is looked up by everything on which its opening depends (`identity`).
"""
import base64, collections, hashlib, hmac, json, re

from lib.texts import b64

NAMES = {
    1: "Usage", 2: "Read", 3: "Write", 4: "Memory", 5: "Random", 6: "Base64", 7: "Json", 8: "Number", 9: "Key", 10: "Form", 11: "Header",
    12: "Unsupported", 13: "NoAlgorithm", 14: "KeyDoesNotFit", 15: "Limit", 16: "NotCompact", 17: "NotOpened",
}
(USAGE, READ, WRITE, MEMORY, RANDOM, BASE64, JSON, NUMBER, KEY, FORM, HEADER, UNSUPPORTED, NO_ALGORITHM, KEY_DOES_NOT_FIT, LIMIT,
 NOT_COMPACT, NOT_OPENED) = NAMES

# Signature algorithms, each with its hash and the least length of a key.
SIGNATURES = {"HS256": ("sha256", 32), "HS384": ("sha384", 48), "HS512": ("sha512", 64)}
# Key wraps, each with the length of its key. If nothing names the algorithm, the length of the key chooses one of the first three.
WRAPS = {"A128KW": 16, "A192KW": 24, "A256KW": 32}
GCM_WRAPS = {"A128GCMKW": 16, "A192GCMKW": 24, "A256GCMKW": 32}
KEY_LENGTHS = WRAPS | GCM_WRAPS
# Password algorithms, each with the length of the key that wraps and of the block of its hash, to which HMAC pads a key with zeros.
PASSWORDS = {"PBES2-HS256+A128KW": (16, 64), "PBES2-HS384+A192KW": (24, 128), "PBES2-HS512+A256KW": (32, 128)}
MANAGEMENT = ["dir", *KEY_LENGTHS, *PASSWORDS]
# Content encryptions, each with the lengths of its key and of its initialization vector.
CONTENTS = {
    "A128CBC-HS256": (32, 16), "A192CBC-HS384": (48, 16), "A256CBC-HS512": (64, 16), "A128GCM": (16, 12), "A192GCM": (24, 12), "A256GCM": (32, 12),
}
# The default content encryption, by the length of the key that wraps or of the key that is used directly.
USUAL_BY_WRAP = {16: "A128CBC-HS256", 24: "A192CBC-HS384", 32: "A256CBC-HS512"}
USUAL_BY_KEY = {32: "A128CBC-HS256", 48: "A192CBC-HS384", 64: "A256CBC-HS512"}
HASHES = {"S224": "sha224", "S256": "sha256", "S384": "sha384", "S512": "sha512"}
# The most keys of a set, and the most signatures or recipients of an object.
MOST_KEYS, MOST_ITEMS = 64, 256
MOST_OCTETS, MOST_LEVELS, MOST_LEVELS_READ = 4096, 64, 127
LEAST_P2C, GREATEST_P2C, MOST_ITERATIONS, USUAL_P2C = 1000, 2_000_000, 16_000_000, 100_000
# The random octets for a key: SALT for a password, KEY_IV for AES-GCM key wrap. TAG is the length of the tag of AES-GCM key wrap.
SALT, KEY_IV, TAG = 16, 12, 16

Key = collections.namedtuple("Key", "octets alg use ops")
Signature = collections.namedtuple("Signature", "text header joint octets")
Signed = collections.namedtuple("Signed", "payload signatures")
Recipient = collections.namedtuple("Recipient", "header joint encrypted_key")
Encrypted = collections.namedtuple("Encrypted", "text unprotected aad iv ciphertext tag recipients")
# The parts that `jwe enc` settles before it reads the plaintext. `headers` has the members that each recipient adds. The only recipient
# adds them to the protected header.
Draft = collections.namedtuple("Draft", "protected unprotected aad iv headers")


class Refused(Exception):
    """A refusal, with the number of its first cause."""

    def __init__(self, number):
        super().__init__(number)
        self.number = number


def needs(holds, number):
    if not holds:
        raise Refused(number)


# ---- octets and texts

def octets_of(text):
    """The octets of a base64url text."""
    needs(re.fullmatch(rb"[A-Za-z0-9_-]*", text) and len(text) % 4 != 1, BASE64)
    octets = base64.urlsafe_b64decode(text + b"=" * (-len(text) % 4))
    needs(b64(octets) == text, BASE64)
    return octets


def without_line_end(text):
    return text[:-2] if text.endswith(b"\r\n") else text[:-1] if text.endswith(b"\n") else text


# ---- JSON

class Raw(str):
    """A piece of JSON text that is kept as it is, such as a number."""


class Members(list):
    """The members of an object in the order of its text: lists of a name and a value. A repeated name is kept."""

    def __init__(self, pairs=()):
        super().__init__(map(list, pairs))


def refuse_constant(name):
    raise ValueError(name)


def read_tree(text):
    """The tree of a JSON text. Raises ValueError if the text is not JSON, and RecursionError if it nests far too deep."""
    return json.loads(text.decode(), object_pairs_hook=Members, parse_int=Raw, parse_float=Raw, parse_constant=refuse_constant)


def number_of(raw):
    """A number of a text. It is a float unless it is an integer of 64 bits. A number that is too large for a float is refused with Json."""
    if re.fullmatch(r"0|-?[1-9][0-9]{0,19}", raw) and -1 << 63 <= int(raw) < 1 << 64:
        return int(raw)
    needs(abs(float(raw)) != float("inf"), JSON)
    return float(raw)


def value_of(tree, levels=0):
    """The value of a tree. Half of a surrogate pair in a string and too many levels are refused with Json."""
    needs(levels <= MOST_LEVELS_READ, JSON)
    if isinstance(tree, Raw):
        return number_of(tree)
    if isinstance(tree, str):
        needs(not re.search("[\ud800-\udfff]", tree), JSON)
        return tree
    if isinstance(tree, Members):
        needs(levels < MOST_LEVELS_READ, JSON)
        return {value_of(name): value_of(one, levels + 1) for name, one in tree}
    if isinstance(tree, list):
        needs(levels < MOST_LEVELS_READ, JSON)
        return [value_of(one, levels + 1) for one in tree]
    return tree


def has_float(value):
    inner = value.values() if isinstance(value, dict) else value if isinstance(value, list) else ()
    return isinstance(value, float) or any(map(has_float, inner))


def read_json(text):
    try:
        value = value_of(read_tree(text))
    except (ValueError, RecursionError):
        raise Refused(JSON) from None
    needs(not has_float(value), NUMBER)
    return value


def json_text(value):
    """The compact text of a value, with members in byte order of their names."""
    return json.dumps(value, ensure_ascii=False, sort_keys=True, separators=(",", ":")).encode()


def depth(value):
    inner = value.values() if isinstance(value, dict) else value if isinstance(value, list) else None
    return 0 if inner is None else 1 + max(map(depth, inner), default=0)


def member(members, name, kind, number=FORM, required=False):
    """A member, which must have this type. If it is absent, an empty value of the type."""
    if name not in members:
        needs(not required, number)
        return kind()
    needs(type(members[name]) is kind, number)
    return members[name]


# ---- keys

def has_typed_members(members):
    ops = members.get("key_ops", [])
    return all(isinstance(members.get(name, ""), str) for name in ("alg", "use", "kid")) and isinstance(ops, list) and all(isinstance(one, str) for one in ops)


def key_of(members):
    """The key that an object describes, or None."""
    if members.get("kty") != "oct" or not isinstance(members.get("k"), str) or not has_typed_members(members):
        return None
    try:
        octets = octets_of(members["k"].encode())
    except Refused:
        return None
    return Key(octets, members.get("alg"), members.get("use"), members.get("key_ops")) if 0 < len(octets) <= MOST_OCTETS else None


def keys_of(text, passes_over):
    """The keys of a text. `passes_over` says whether to ignore objects of a set that are not good keys."""
    value = read_json(text)
    needs(isinstance(value, dict), KEY)
    listed = value.get("keys") if "keys" in value else [value]
    needs(isinstance(listed, list) and all(isinstance(one, dict) for one in listed), KEY)
    needs(len(listed) <= MOST_KEYS, LIMIT)
    keys = [key_of(one) for one in listed]
    needs(any(keys) and (passes_over or all(keys)), KEY)
    return [key for key in keys if key]


def allows(key, use, names):
    return key.use in (None, use) and (key.ops is None or any(name in key.ops for name in names))


def fits_signing(key, alg):
    return key.alg in (None, alg) and len(key.octets) >= SIGNATURES[alg][1]


def operations(alg, way):
    """The names of the operations that allow encrypting (`way` 0) or decrypting (1)."""
    if alg == "dir":
        return [["encrypt"], ["decrypt"]][way]
    return [["wrapKey"], ["unwrapKey"]][way] + (["deriveKey", "deriveBits"] if alg in PASSWORDS else [])


def fits_management(key, alg, enc):
    if alg == "dir":
        return key.alg in (None, alg, enc) and len(key.octets) == CONTENTS[enc][0]
    return key.alg in (None, alg) and len(key.octets) == KEY_LENGTHS.get(alg, len(key.octets))


def jwk_thp(keys, hash_name="S256"):
    texts = [json_text({"k": b64(key.octets).decode(), "kty": "oct"}) for key in keys_of(keys, True)]
    return b"\n".join(b64(hashlib.new(HASHES[hash_name], text).digest()) for text in texts)


def key_size(alg, asked):
    """The size of a key that is made. `asked` is the size in the template, or None."""
    exact = KEY_LENGTHS.get(alg) or CONTENTS.get(alg, [None])[0]
    least = SIGNATURES[alg][1] if alg in SIGNATURES else exact
    needs(alg is None or alg in SIGNATURES or alg in MANAGEMENT or alg in CONTENTS, UNSUPPORTED)
    needs(asked or least, NO_ALGORITHM)
    size = asked or least
    needs(size == exact if exact else size >= (least or 1), KEY_DOES_NOT_FIT)
    return size


def made_operations(alg):
    if alg in SIGNATURES:
        return ["sign", "verify"]
    return ["encrypt", "decrypt"] if alg == "dir" or alg in CONTENTS else ["wrapKey", "unwrapKey"]


def jwk_gen(template, random):
    value = read_json(template)
    needs(isinstance(value, dict) and not {"k", "keys"} & set(value), KEY)
    needs(value.get("kty", "oct") == "oct" and has_typed_members(value), KEY)
    asked = value.get("bytes", 1)
    needs(type(asked) is int and asked >= 1, KEY)
    needs(asked <= MOST_OCTETS, LIMIT)
    alg = value.get("alg")
    size = key_size(alg, value.get("bytes"))
    made = {name: one for name, one in value.items() if name != "bytes"} | {"kty": "oct"}
    if "alg" in value and "key_ops" not in value and "use" not in value:
        made["key_ops"] = made_operations(alg)
    needs(depth(made) <= MOST_LEVELS, LIMIT)
    needs(len(random) >= size, RANDOM)
    return json_text(made | {"k": b64(random[:size]).decode()})


# ---- objects

def is_json(text):
    return text.lstrip(b" \t\n\r").startswith(b"{")


def joint_header(*parts):
    joint = {}
    for part in parts:
        needs(not set(part) & set(joint), HEADER)
        joint |= part
    return joint


def protected_header(octets):
    value = read_json(octets) if octets else {}
    needs(isinstance(value, dict), HEADER)
    return value


def check_parameters(joint, names):
    for name in names:
        member(joint, name, str, HEADER, True)
    if joint["alg"] in PASSWORDS:
        needs(len(octets_parameter(joint, "p2s")) >= 8 and member(joint, "p2c", int, HEADER, True) >= 1, HEADER)
    if joint["alg"] in GCM_WRAPS:
        octets_parameter(joint, "iv")
        octets_parameter(joint, "tag")


def octets_parameter(joint, name):
    """The octets of a header member, which must be a base64url text."""
    try:
        return octets_of(member(joint, name, str, HEADER, True).encode())
    except Refused:
        raise Refused(HEADER) from None


def compact_parts(text, count, content, detached):
    parts = without_line_end(text).split(b".")
    needs(len(parts) == count, FORM)
    needs(detached is None or not parts[content], FORM)
    return parts


def content_member(value, name, detached):
    text = member(value, name, str, required=detached is None)
    needs(detached is None or not text, FORM)
    return text.encode()


def items_of(value, name):
    """The objects of a list of signatures or recipients, or the object itself if there is no list."""
    items = member(value, name, list) if name in value else [value]
    needs(items and all(isinstance(one, dict) for one in items), FORM)
    return items


def read_signed(text, detached):
    """Reads a signed object."""
    if is_json(text):
        value = read_json(text)
        payload = content_member(value, "payload", detached)
        items = items_of(value, "signatures")
        beside = member(value, "protected", str), member(value, "header", dict), member(value, "signature", str)
        needs("signatures" not in value or not any(beside[:2]) and "signature" not in value, FORM)
        rows = [(member(one, "protected", str).encode(), member(one, "header", dict), member(one, "signature", str, required=True).encode()) for one in items]
        needs(len(rows) <= MOST_ITEMS, LIMIT)
    else:
        protected, payload, signature = compact_parts(text, 3, 1, detached)
        rows = [(protected, {}, signature)]
    payload = octets_of(payload) if detached is None else detached
    decoded = [(octets_of(protected), octets_of(signature)) for protected, _, signature in rows]
    headers = [protected_header(octets) for octets, _ in decoded]
    joints = [joint_header(protected, header) for protected, (_, header, _) in zip(headers, rows)]
    for joint in joints:
        check_parameters(joint, ["alg"])
    needs(not any("crit" in joint for joint in joints), UNSUPPORTED)
    return Signed(payload, [Signature(row[0], row[1], joint, octets) for row, joint, (_, octets) in zip(rows, joints, decoded)])


def read_encrypted(text, detached):
    """Reads an encrypted object."""
    if is_json(text):
        value = read_json(text)
        ciphertext = content_member(value, "ciphertext", detached)
        items = items_of(value, "recipients")
        beside = member(value, "header", dict), member(value, "encrypted_key", str)
        needs("recipients" not in value or not any(beside), FORM)
        protected, iv, aad, tag = (member(value, name, str).encode() for name in ("protected", "iv", "aad", "tag"))
        unprotected = member(value, "unprotected", dict)
        rows = [(member(one, "header", dict), member(one, "encrypted_key", str).encode()) for one in items]
        needs(len(rows) <= MOST_ITEMS, LIMIT)
    else:
        protected, encrypted_key, iv, ciphertext, tag = compact_parts(text, 5, 3, detached)
        unprotected, aad, rows = {}, b"", [({}, encrypted_key)]
    octets, iv, aad, tag = map(octets_of, (protected, iv, aad, tag))
    ciphertext = octets_of(ciphertext) if detached is None else detached
    keys = [octets_of(encrypted_key) for _, encrypted_key in rows]
    header = protected_header(octets)
    joints = [joint_header(header, unprotected, own) for own, _ in rows]
    for joint in joints:
        check_parameters(joint, ["alg", "enc"])
    needs(len({joint["enc"] for joint in joints}) == 1, HEADER)
    needs(not any(name in joint for joint in joints for name in ("crit", "zip")), UNSUPPORTED)
    return Encrypted(protected, unprotected, aad, iv, ciphertext, tag, [Recipient(row[0], joint, key) for row, joint, key in zip(rows, joints, keys)])


def without_empty(**members):
    return {name: one.decode() if isinstance(one, bytes) else one for name, one in members.items() if one}


def form_of(top, name, items):
    return json_text(top | items[0] if len(items) == 1 else top | {name: items})


def write_signed(signed, compact, detach):
    payload = b64(signed.payload)
    first = signed.signatures[0]
    if compact:
        needs(len(signed.signatures) == 1 and not first.header, NOT_COMPACT)
        return b".".join([first.text, b"" if detach else payload, b64(first.octets)])
    items = [without_empty(header=one.header, protected=one.text) | {"signature": b64(one.octets).decode()} for one in signed.signatures]
    return form_of({} if detach else {"payload": payload.decode()}, "signatures", items)


def write_encrypted(encrypted, compact, detach):
    ciphertext, aad, iv, tag = map(b64, (encrypted.ciphertext, encrypted.aad, encrypted.iv, encrypted.tag))
    first = encrypted.recipients[0]
    if compact:
        needs(len(encrypted.recipients) == 1 and not encrypted.unprotected and not first.header and not aad, NOT_COMPACT)
        return b".".join([encrypted.text, b64(first.encrypted_key), iv, b"" if detach else ciphertext, tag])
    top = without_empty(protected=encrypted.text, unprotected=encrypted.unprotected, aad=aad, iv=iv, tag=tag)
    items = [without_empty(header=one.header, encrypted_key=b64(one.encrypted_key)) for one in encrypted.recipients]
    return form_of(top if detach else top | {"ciphertext": ciphertext.decode()}, "recipients", items)


def jws_fmt(text, detached, compact, detach):
    signed = read_signed(text, detached)
    return write_signed(signed, compact, detach), signed.payload


def jwe_fmt(text, detached, compact, detach):
    encrypted = read_encrypted(text, detached)
    return write_encrypted(encrypted, compact, detach), encrypted.ciphertext


# ---- signing and verifying

def signature_of(key, alg, text, payload):
    return hmac.digest(key.octets, text + b"." + b64(payload), SIGNATURES[alg][0])


def jws_ver(keys, text, detached, each):
    """Returns the payload."""
    keys = keys_of(keys, True)
    signed = read_signed(text, detached)
    supported = [one for one in signed.signatures if one.joint["alg"] in SIGNATURES]
    needs(supported, UNSUPPORTED)
    pairs = [(one, place) for one in supported for place, key in enumerate(keys) if allows(key, "sig", ["verify"]) and fits_signing(key, one.joint["alg"])]
    needs(pairs, KEY_DOES_NOT_FIT)
    good = {place for one, place in pairs if hmac.compare_digest(one.octets, signature_of(keys[place], one.joint["alg"], one.text, signed.payload))}
    needs(len(good) == len(keys) if each else good, NOT_OPENED)
    return signed.payload


def signature_alg(key):
    if key.alg is not None:
        needs(key.alg in SIGNATURES, KEY_DOES_NOT_FIT)
        return key.alg
    fitting = [alg for alg, (_, least) in SIGNATURES.items() if len(key.octets) >= least]
    needs(fitting, NO_ALGORITHM)
    return fitting[-1]


def template_of(text, headers, more=()):
    """The headers of a template, its other members (base64url texts), and the joint header."""
    value = read_json(text)
    needs(isinstance(value, dict) and set(value) <= {*headers, *more}, FORM)
    parts = [member(value, name, dict) for name in headers]
    strings = [member(value, name, str) for name in more]
    for one in strings:
        octets_of(one.encode())
    joint = joint_header(*parts)
    return parts, strings, joint


def named(joint, name):
    """The algorithm that a template names in this member, or None."""
    return member(joint, name, str, HEADER) if name in joint else None


def jws_sig(keys, template, payload, compact, detach):
    """Returns the text of the signed object."""
    keys = keys_of(keys, False)
    (protected, header), _, joint = template_of(template, ["protected", "header"])
    alg = named(joint, "alg")
    needs("crit" not in joint, UNSUPPORTED)
    needs(alg is None or alg in SIGNATURES, UNSUPPORTED)
    algs = [alg or signature_alg(key) for key in keys]
    needs(all(allows(key, "sig", ["sign"]) and fits_signing(key, one) for key, one in zip(keys, algs)), KEY_DOES_NOT_FIT)
    needs(max(depth(protected), depth(header)) <= MOST_LEVELS, LIMIT)
    needs(not compact or len(keys) == 1 and not header, NOT_COMPACT)
    signatures = []
    for key, one in zip(keys, algs):
        written = protected if alg else protected | {"alg": one}
        text = b64(json_text(written)) if written else b""
        signatures.append(Signature(text, header, None, signature_of(key, one, text, payload)))
    return write_signed(Signed(payload, signatures), compact, detach)


# ---- encrypting and decrypting

def management_alg(key):
    if key.alg is not None:
        needs(key.alg in MANAGEMENT or key.alg in CONTENTS, KEY_DOES_NOT_FIT)
        return "dir" if key.alg in CONTENTS else key.alg
    fitting = [alg for alg, length in WRAPS.items() if len(key.octets) == length]
    needs(fitting, NO_ALGORITHM)
    return fitting[0]


def content_alg(key, alg):
    """The content encryption if the template names none. The first key and its algorithm choose it."""
    if alg == "dir":
        found = key.alg if key.alg in CONTENTS else USUAL_BY_KEY.get(len(key.octets))
        needs(found, NO_ALGORITHM)
        return found
    return USUAL_BY_WRAP[KEY_LENGTHS[alg] if alg in KEY_LENGTHS else PASSWORDS[alg][0]]


def jwe_enc(keys, template, random, compact):
    """Returns the draft, which has all parts of the object that do not depend on the plaintext."""
    keys = keys_of(keys, False)
    (protected, unprotected), (aad,), joint = template_of(template, ["protected", "unprotected"], ["aad"])
    alg, enc = named(joint, "alg"), named(joint, "enc")
    needs(not any(name in joint for name in ("p2s", "iv", "tag")), HEADER)
    needs("crit" not in joint and "zip" not in joint, UNSUPPORTED)
    needs((alg is None or alg in MANAGEMENT) and (enc is None or enc in CONTENTS), UNSUPPORTED)
    algs = [alg or management_alg(key) for key in keys]
    needs(len(keys) == 1 or "dir" not in algs, HEADER)
    chosen = enc or content_alg(keys[0], algs[0])
    needs(all(allows(key, "enc", operations(one, 0)) and fits_management(key, one, chosen) for key, one in zip(keys, algs)), KEY_DOES_NOT_FIT)
    passwords = [one for one in algs if one in PASSWORDS]
    p2c = joint.get("p2c", USUAL_P2C)
    if passwords:
        needs(type(p2c) is int and p2c >= 0, HEADER)
    needs(max(depth(protected), depth(unprotected)) <= MOST_LEVELS, LIMIT)
    needs(not passwords or LEAST_P2C <= p2c <= GREATEST_P2C and p2c * len(passwords) <= MOST_ITERATIONS, LIMIT)
    needs(not compact or len(keys) == 1 and not aad and not unprotected, NOT_COMPACT)
    drawn = 0
    headers = []
    for one in algs:
        header = {} if alg else {"alg": one}
        if one in PASSWORDS:
            header |= {"p2s": b64(random[drawn:drawn + SALT]).decode()} | ({} if "p2c" in joint else {"p2c": p2c})
            drawn += SALT
        if one in GCM_WRAPS:
            header |= {"iv": b64(random[drawn:drawn + KEY_IV]).decode()}
            drawn += KEY_IV
        headers.append(header)
    key_length, iv_length = CONTENTS[chosen]
    drawn += 0 if algs == ["dir"] else key_length
    needs(len(random) >= drawn + iv_length, RANDOM)
    return Draft(protected | ({} if enc else {"enc": chosen}), unprotected, octets_of(aad.encode()), random[drawn:drawn + iv_length], headers)


def drafted(draft, tags):
    """The parts of a draft as they are in the object: the text of the protected header, and the headers of the recipients. `tags` has a tag
    for each recipient by AES-GCM key wrap, since the cipher makes it, and None for the others."""
    headers = [header if tag is None else header | {"tag": tag} for header, tag in zip(draft.headers, tags, strict=True)]
    protected = draft.protected
    if len(headers) == 1:
        protected, headers = protected | headers[0], [{}]
    return b64(json_text(protected)) if protected else b"", draft.unprotected, draft.aad, draft.iv, headers


def identity(encrypted, recipient, key):
    """Everything on which the opening of an object at a recipient by a key depends. To HMAC a password is the same with zeros after it."""
    alg, enc = recipient.joint["alg"], recipient.joint["enc"]
    octets, more = key.octets, ()
    if alg in PASSWORDS:
        octets = octets if len(octets) > PASSWORDS[alg][1] else octets.rstrip(b"\0")
        more = recipient.joint["p2s"], recipient.joint["p2c"]
    if alg in GCM_WRAPS:
        more = recipient.joint["iv"], recipient.joint["tag"]
    return encrypted.text, encrypted.aad, encrypted.iv, encrypted.ciphertext, encrypted.tag, recipient.encrypted_key, alg, enc, octets, more


def jwe_dec(keys, text, detached, known):
    """Returns the plaintext. `known` has the plaintexts of the objects that open, by their identities."""
    keys = keys_of(keys, True)
    encrypted = read_encrypted(text, detached)
    supported = [one for one in encrypted.recipients if one.joint["alg"] in MANAGEMENT and one.joint["enc"] in CONTENTS]
    needs(supported, UNSUPPORTED)
    pairs = []
    for one in supported:
        alg, enc = one.joint["alg"], one.joint["enc"]
        pairs += [(one, key) for key in keys if allows(key, "enc", operations(alg, 1)) and fits_management(key, alg, enc)]
    needs(pairs, KEY_DOES_NOT_FIT)
    counts = [one.joint["p2c"] for one, _ in pairs if one.joint["alg"] in PASSWORDS]
    needs(max(counts, default=0) <= GREATEST_P2C and sum(counts) <= MOST_ITERATIONS, LIMIT)
    for one, key in pairs:
        plaintext = known.get(identity(encrypted, one, key))
        if plaintext is not None:
            return plaintext
    raise Refused(NOT_OPENED)
