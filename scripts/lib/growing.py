"""Makes inputs of any size for scripts/growth. The table lib/growth.txt names the generators, and says how many or how long each thing is.

A generator returns files by their names. It takes the members of a header, of a key or of an object as a text: `kid:letters:9,*:names:5` are
a member `kid` that is a string of 9 letters, and 5 members with names of their own. SHAPES and MEMBERS have these words.

No object is made by the program that is measured. Signatures are made by Python's `hmac`. A ciphertext by A128CBC-HS256 is the one of RFC
7516 appendix A.3 behind random blocks, with a tag by `hmac`: CBC decrypts the last block with the help of the block before it alone, so its
padding is right. A ciphertext by A128GCM is zero, and so are its key and its initialization vector. Test case 1 of GCM (McGrew and Viega) has
the two blocks of AES that its tag needs.
"""
import hashlib, hmac, random

from lib.standards import RFC7515_KEY, RFC7516_A3, RFC7516_KEY, RFC7516_RANDOM
from lib.texts import b64, octets_of

SIGNING_KEY = octets_of(RFC7515_KEY.split(b'"')[7])
WRAPPING_KEY = octets_of(RFC7516_KEY.split(b'"')[7])
CEK, IV = RFC7516_RANDOM[:32], RFC7516_RANDOM[32:]
# The hash key and the first block of the key stream, for a key and an initialization vector of zeros.
GCM_HASH_KEY, GCM_FIRST = 0x66e94bd4ef8a2c3b884cfa59ca342b2e, 0x58e2fccefa7e3061367f1d57a4e7455a
GCM_KEY, GCM_IV = bytes(16), bytes(12)
WRAPPED_CEK, _, LAST_BLOCKS = [octets_of(part) for part in RFC7516_A3.split(b".")[1:4]]
# How many numbers the innermost list has in values that nest, and how many each list of a comb has. Objects have fewer members.
WIDE, TEETH = 50_000, 1_500


# ---- values

def string(piece):
    """Strings of this piece, so many times."""
    return lambda count: b'"%s"' % (piece * count)


def list_of(piece):
    """Lists of this value, so many times."""
    return lambda count: b"[%s]" % b",".join([piece] * count)


def members_of(names):
    """Members with these names, and with 0 as their values."""
    return b",".join(b'"%s":0' % name for name in names)


def names_from(start):
    """So many members with different names, in the order of their names."""
    return lambda count: members_of(b"%s%06d" % (start, at) for at in range(count))


def mixed_names(count):
    order = list(range(count))
    random.Random(count).shuffle(order)
    return members_of(b"n%06d" % at for at in order)


letters, numbers, names = string(b"A"), list_of(b"0"), names_from(b"n")


def comb(opening, before, behind, brackets, depth):
    """Values in values, so many deep, each with these texts before and behind the next one."""
    return (opening % before) * (depth - 1) + brackets % before + (b",%s%s" % (behind, brackets[-1:])) * (depth - 1)


# How the text of a value is made from a number: how many or how long, or how deep if the innermost of nested values is wide.
SHAPES = {
    # A string of letters is a base64url text too, unless its length is one more than a multiple of four.
    "letters": letters, "escapes": string(b"\\u0041"), "quotes": string(b'\\"'), "accents": string("é".encode()),
    "backslashes": lambda count: b'"%sA"' % (b"\\\\" * count),
    "numbers": numbers, "large_numbers": list_of(b"18446744073709551615"), "strings": list_of(b'"AA"'), "long_strings": list_of(letters(1000)),
    "empty_objects": list_of(b"{}"), "small_objects": list_of(b'{"a":0}'),
    # A list of operations for `key_ops`. The last six allow everything.
    "operations": lambda count: b'[%s"sign","verify","wrapKey","unwrapKey","encrypt","decrypt"]' % (b'"other",' * (count - 6)),
    # A list of one number behind so much white space.
    "spaces": lambda count: b"[%s0]" % (b" \n" * (count // 2)),
    "nested_lists": lambda depth: b"[" * (depth - 1) + numbers(WIDE) + b"]" * (depth - 1),
    "nested_objects": lambda depth: b'{"a":' * (depth - 1) + b"{%s}" % names(WIDE // 4) + b"}" * (depth - 1),
    # Lists and objects in turn. The depth is an even number.
    "nested_both": lambda depth: b'{"a":[' * (depth // 2 - 1) + b'{"a":%s}' % numbers(WIDE) + b"]}" * (depth // 2 - 1),
    "comb_of_lists": lambda depth: comb(b"[%s,", *[b",".join([b"0"] * (TEETH // 2))] * 2, b"[%s]", depth),
    "comb_of_objects": lambda depth: comb(b'{%s,"m":', names_from(b"b")(TEETH // 8), names_from(b"z")(TEETH // 8), b"{%s}", depth),
    # A string, a number and a JSON text as they are.
    "is": lambda word: b'"%s"' % word.encode(), "number": lambda value: b"%d" % value, "json": lambda text: text.encode(),
}
literal, number = SHAPES["is"], SHAPES["number"]
# How so many members of an object are made, or one member with so long a name.
MEMBERS = {
    "names": names, "other_names": names_from(b"o"), "mixed_names": mixed_names,
    "falling_names": lambda count: members_of(b"n%06d" % at for at in reversed(range(count))),
    # Names that differ only behind 200 letters, and names with an escape each.
    "alike_names": names_from(b"A" * 200), "escaped_names": names_from(b"\\u006e"),
    "repeated_names": lambda count: members_of([b"same"] * count),
    "long_name": lambda count: members_of([b"A" * count]), "escaped_name": lambda count: members_of([b"\\u0041" * count]),
}


def value(shape, size):
    """The text of a value of this shape."""
    return b"{%s}" % MEMBERS[shape](int(size)) if shape in MEMBERS else SHAPES[shape](int(size) if size.isdigit() else size)


def object_text(listed, **usual):
    """The text of an object: the usual members, each with the text of its value or None, and then the listed ones. A listed member replaces
    the usual one of its name."""
    parts = [part.split(":") for part in listed.split(",") if part]
    given = {name: value(shape, size) for name, shape, size in parts if name != "*"}
    members = [b'"%s":%s' % (name.encode(), text) for name, text in (usual | given).items() if text is not None]
    return b"{%s}" % b",".join(members + [MEMBERS[shape](int(size)) for name, shape, size in parts if name == "*"])


def list_text(texts):
    return b"[%s]" % b",".join(texts)


def json_string(text):
    return b'"%s"' % text


def optional(text):
    """The text of a member that is left out if it is empty."""
    return json_string(text) if text else None


# ---- keys

def different(seed, count, length):
    """So many octet strings of a length, which differ."""
    rng = random.Random(f"{seed} {count} {length}")
    return [rng.randbytes(length) for _ in range(count)]


def key_text(octets, listed="", k="k"):
    """The text of a key with the listed members. Without a member `k` it is no key, so `k` may have another name."""
    return object_text(listed, kty=b'"oct"', **{k: json_string(b64(octets))})


def keys_with(right, count, key, other_key=""):
    """The text of a key, or of a set of several of one length, of which the last is right. Each has the listed members. The others may have
    members of their own."""
    texts = [key_text(one, other_key or key) for one in different("keys", count - 1, len(right))] + [key_text(right, key)]
    return texts[0] if count == 1 else object_text("", keys=list_text(texts))


def blanks(length):
    """So many octets of white space."""
    return (b" \t\r\n" * (length // 4 + 1))[:length]


def keys(count=1, length=64, key="", beside="", k="k", bad=0, others=0, blank=0):
    """The file `keys`: a key, or a set of several, each with the listed members. The set has `beside` next to its list, and so many other
    values in its list. The first `bad` keys have padding. `k` is the name of the member with the secret. `blank` is the length of the white
    space before the text."""
    texts = [key_text(one, key, k) for one in different("keys", count, length)]
    texts[:bad] = [object_text(key, kty=b'"oct"', k=json_string(b64(bytes(length)) + b"=")) for _ in range(bad)]
    texts += [b"0"] * others
    return {"keys": blanks(blank) + (texts[0] if len(texts) == 1 and not beside else object_text(beside, keys=list_text(texts)))}


def sets(count=2, key="", blank=0):
    """The files `set`, a set of keys with the listed members; `more`, another such key; and `gone`, the thumbprint of the first key. White
    space of a length is before both texts."""
    octets = different("keys", count + 1, 64)
    texts = [key_text(one, key) for one in octets]
    gone = hashlib.sha256(b'{"k":"%s","kty":"oct"}' % b64(octets[0])).digest()
    return {"set": blanks(blank) + object_text("", keys=list_text(texts[:-1])), "more": blanks(blank) + texts[-1], "gone": b64(gone)}


def agreed(count=2, key="", payload=64, blank=0):
    """The files `keys`, a set of keys with the listed members, behind white space of a length; and `object`, which each of them signed."""
    octets = different("keys", count, 64)
    head, body = b64(object_text("", alg=literal("HS256"))), b64(octets_for(payload))
    codes = [hmac.digest(one, head + b"." + body, "sha256") for one in octets]
    items = [object_text("", protected=json_string(head), signature=json_string(b64(code))) for code in codes]
    made = object_text("", payload=json_string(body), signatures=list_text(items))
    return {"keys": blanks(blank) + object_text("", keys=list_text(key_text(one, key) for one in octets)), "object": made}


# ---- contents and texts

def octets_for(length):
    return random.Random(length).randbytes(length)


def content(length):
    """The file `content`, of so many octets."""
    return {"content": octets_for(length)}


def text(length, bad=0):
    """The file `text`: the base64url text of so many octets. The last character of a bad one is padding."""
    made = b64(octets_for(length))
    return {"text": made[:-1] + b"=" if bad else made}


def repeated(name, before, body, count, behind):
    """A file of this name: a text, another text again and again, and a third."""
    return {name: before.encode() + body.encode() * count + behind.encode()}


def json_text(members="", blank=0):
    """The file `text`: an object with the listed members, behind white space of a length."""
    return {"text": blanks(blank) + object_text(members)}


def deep(depth):
    """The file `text`: objects in objects, so many deep."""
    return {"text": b'{"a":' * depth + b"0" + b"}" * depth}


# ---- templates

def header(listed):
    """The text of a header with the listed members, or None without them."""
    return object_text(listed) if listed else None


def generating(template="", alg="HS256", behind=""):
    """The files for `jwk gen`: a template with the listed members, which a text may follow, and random octets."""
    return {"template": object_text(template, alg=literal(alg) if alg else None) + behind.encode(), "random": octets_for(4096)}


def signing(protected="", header_members="", count=1, key="", payload=64, length=64):
    """The files for `jws sig`: a template with these headers, keys of a length, and a payload."""
    made = object_text("", protected=header(protected), header=header(header_members))
    return {"template": made, "keys": keys_with(octets_for(length), count, key), **content(payload)}


def encrypting(protected="", unprotected="", aad=0, template="", count=1, key="", other_key="", plaintext=64, length=16):
    """The files for `jwe enc`: a template with these headers, additional data of a length, and the listed members; keys of a length, a
    plaintext, and random octets. Each key but the last may have members of its own."""
    made = object_text(template, protected=header(protected), unprotected=header(unprotected), aad=optional(b64(bytes(aad))))
    return {"template": made, "keys": keys_with(octets_for(length), count, key, other_key), **content(plaintext), "random": octets_for(8192)}


# ---- objects

def right_ones(which, count):
    """The places of the right ones among so many: the first, the last, all or none."""
    return {"first": {0}, "last": {count - 1}, "all": set(range(count)), "none": set()}[which]


def unless_empty(text):
    """The text of an object, or None if it has no members."""
    return text if text != b"{}" else None


def protected_text(text):
    """The base64url text of a protected header. It is empty without members."""
    return b64(text) if text != b"{}" else b""


def spoil(bad, **parts):
    """The parts. The last character of the one that has this name becomes padding."""
    return {name: part[:-1] + b"=" if name == bad else part for name, part in parts.items()}


def in_form(form, compact, outer, items, name, beside, within):
    """The text of an object. In compact form it has these parts, in flattened form the members of the object and of its only item, and in
    general form a list of items. The listed members are added to the object and to each item of a list."""
    if form == "compact":
        return b".".join(compact)
    more = items[0] if form == "flattened" else {name: list_text(object_text(within, **one) for one in items)}
    return object_text(beside, **outer, **more)


def signed(form="compact", payload=64, protected="", header_members="", where="protected", beside="", within="", signatures=1, right="first",
           wrong=32, differ=0, others="HS256", count=1, key="", other_key="", detached=0, bad=""):
    """The files for `jws ver` and `jws fmt`: a signed object, keys of which the last is right, and the payload if it is detached.

    The object, and each signature, protected header and header have the listed members (`beside`, `within`, `protected`,
    `header_members`). `where` is the header with the `alg`, HS256. `right` says which signatures are right. The others have `wrong` octets
    and the `alg` that `others` says. If the protected headers are to differ, they have a number. `bad` names the part that is no base64url
    text.
    """
    octets = octets_for(payload)
    body = b64(octets)
    correct = right_ones(right, signatures)
    items = []
    for at, signature in enumerate(different("signatures", signatures, wrong)):
        named = {"alg": literal("HS256" if at in correct else others)}
        head = protected_text(object_text(protected, n=number(at) if differ else None, **(named if where == "protected" else {})))
        if at in correct:
            code = hmac.new(SIGNING_KEY, head + b".", hashlib.sha256)
            code.update(body)
            signature = code.digest()
        own = object_text(header_members, **(named if where == "header" else {}))
        parts = spoil(bad, protected=head, signature=b64(signature))
        items.append({"protected": optional(parts["protected"]), "header": unless_empty(own), "signature": json_string(parts["signature"])})
    given = b"" if detached else spoil(bad, payload=body)["payload"]
    outer = {"payload": None if detached else json_string(given)}
    made = in_form(form, [parts["protected"], given, parts["signature"]], outer, items, "signatures", beside, within)
    return {"object": made, "keys": keys_with(SIGNING_KEY, count, key, other_key), **({"content": octets} if detached else {})}


def product(one, other):
    """The product of two blocks in the field of GCM (SP 800-38D section 6.3)."""
    result = 0
    for bit in range(127, -1, -1):
        result ^= other * (one >> bit & 1)
        other = other >> 1 ^ (0xe1 << 120) * (other & 1)
    return result


def zero_blocks(hashed, count):
    """The hash of GCM after so many more blocks of zeros."""
    power = GCM_HASH_KEY
    while count:
        hashed = product(hashed, power) if count & 1 else hashed
        power = product(power, power)
        count >>= 1
    return hashed


def sealed_by_gcm(length, data):
    """A ciphertext of whole blocks by A128GCM, with its initialization vector and its tag."""
    hashed = 0
    for at in range(0, len(data), 16):
        hashed = product(hashed ^ int.from_bytes(data[at:at + 16].ljust(16, b"\0"), "big"), GCM_HASH_KEY)
    hashed = product(zero_blocks(hashed, length // 16) ^ (8 * len(data) << 64 | 8 * length), GCM_HASH_KEY)
    return bytes(length), GCM_IV, (hashed ^ GCM_FIRST).to_bytes(16, "big")


def sealed_by_cbc(length, data):
    """A ciphertext of at least two whole blocks by A128CBC-HS256, with its initialization vector and its tag."""
    octets = octets_for(length)[len(LAST_BLOCKS):] + LAST_BLOCKS
    code = hmac.new(CEK[:16], data + IV, hashlib.sha256)
    code.update(octets)
    code.update((8 * len(data)).to_bytes(8, "big"))
    return octets, IV, code.digest()[:16]


def encrypted(form="compact", ciphertext=64, protected="", unprotected="", header_members="", where="protected", beside="", within="", aad=0, iv="right",
              tag="right", alg="dir", enc="A128CBC-HS256", recipients=1, right="first", wrong=40, alike=0, p2s=0, count=1, key="", other_key="",
              detached=0, bad="", last_members=""):
    """The files for `jwe dec` and `jwe fmt`: an encrypted object, keys of which the last is right, and the ciphertext if it is detached.

    The object, and each recipient and header have the listed members (`beside`, `within`, `protected`, `unprotected`, `header_members`), and
    the header of the last recipient those of `last_members` too.
    `where` is the header with the `alg`; the protected header has the `enc`. Several algorithms have `/` between them, and the
    recipients have them in turn. By A128KW `right` says which encrypted keys are right. The
    others have `wrong` octets, and differ unless they are `alike`. With `p2s` each recipient has a salt of its own of so many octets.
    `aad` is a length, and so are `iv` and `tag` unless they are right. `bad` names the part that is no base64url text.
    """
    algs = alg.split("/")
    named = {"alg": literal(algs[0])}
    head = protected_text(object_text(protected, enc=literal(enc), **(named if where == "protected" else {})))
    shared = object_text(unprotected, **(named if where == "unprotected" else {}))
    more = b64(bytes(aad))
    octets, vector, code = (sealed_by_gcm if enc == "A128GCM" else sealed_by_cbc)(ciphertext, head + (b"." + more if more else b""))
    vector, code = vector if iv == "right" else bytes(iv), code if tag == "right" else bytes(tag)
    parts = spoil(bad, protected=head, aad=more, iv=b64(vector), ciphertext=b"" if detached else b64(octets), tag=b64(code))
    correct = right_ones(right, recipients) if "A128KW" in algs else set()
    guesses = [bytes(wrong)] * recipients if alike else different("encrypted keys", recipients, wrong)
    salts = different("salts", recipients, p2s)
    items = []
    for at in range(recipients):
        encrypted_key = b"" if alg == "dir" else b64(WRAPPED_CEK if at in correct else guesses[at])
        named = {"alg": literal(algs[at % len(algs)])}
        listed = f"{header_members},{last_members}" if at == recipients - 1 else header_members
        own = object_text(listed, p2s=optional(b64(salts[at])), **(named if where == "header" else {}))
        items.append({"header": unless_empty(own), **{name: optional(part) for name, part in spoil(bad, encrypted_key=encrypted_key).items()}})
    outer = {name: optional(part) for name, part in parts.items()} | {"unprotected": unless_empty(shared)}
    compact = [parts["protected"], encrypted_key, parts["iv"], parts["ciphertext"], parts["tag"]]
    made = in_form(form, compact, outer, items, "recipients", beside, within)
    right_key = WRAPPING_KEY if "A128KW" in algs else GCM_KEY if enc == "A128GCM" else CEK
    return {"object": made, "keys": keys_with(right_key, count, key, other_key), **({"content": octets} if detached else {})}


GENERATORS = {one.__name__: one for one in (keys, sets, agreed, content, text, repeated, json_text, deep, generating, signing, encrypting, signed, encrypted)}
