"""Random changes of texts, for scripts/hostile. Each is a function of a `random.Random` and a text. It returns the changed text, or None if
it does not apply to this text.
"""
import functools, json, re

from lib import answers
from lib.answers import Members, Raw, Refused
from lib.texts import b64

# The changed text must be shorter than this.
MOST = 4 << 20
# Texts that may replace the whole text.
OTHERS = []

# ---- changes of octets


def bits_changed(rng, text):
    changed = bytearray(text)
    for _ in range(rng.choice([1, 1, 1, 2, 8]) if text else 0):
        changed[rng.randrange(len(text))] ^= 1 << rng.randrange(8)
    return bytes(changed)


def two_places(rng, text):
    first = rng.randrange(len(text) + 1)
    return first, min(len(text), first + rng.choice([1, 1, 2, 3, 4, 16, 100]))


def octets_deleted(rng, text):
    first, last = two_places(rng, text)
    return text[:first] + text[last:]


def octets_doubled(rng, text):
    first, last = two_places(rng, text)
    return text[:last] + text[first:]


def octets_exchanged(rng, text):
    first, last = two_places(rng, text)
    third, fourth = sorted(rng.choices(range(last, len(text) + 1), k=2))
    return text[:first] + text[third:fourth] + text[last:third] + text[first:last] + text[fourth:]


def put_in(rng, text, more):
    place = rng.choice([0, len(text), rng.randrange(len(text) + 1)])
    return text[:place] + more + text[place:]


BAD_UTF8 = [b"\xff", b"\x80", b"\xc0\xaf", b"\xed\xa0\x80", b"\xf4\x90\x80\x80", b"\xe2\x82"]
OF_OCTETS = {
    "cut": lambda rng, text: text[:rng.randrange(len(text))] if text else None,
    "bits_changed": bits_changed,
    "octets_deleted": octets_deleted,
    "octets_doubled": octets_doubled,
    "octets_exchanged": octets_exchanged,
    "octet_put_in": lambda rng, text: put_in(rng, text, rng.randbytes(rng.choice([1, 1, 3]))),
    "bad_utf8_put_in": lambda rng, text: put_in(rng, text, rng.choice(BAD_UTF8)),
    "nul_put_in": lambda rng, text: put_in(rng, text, b"\0"),
    "byte_order_mark": lambda rng, text: b"\xef\xbb\xbf" + text,
    "emptied": lambda rng, text: b"",
    "twice": lambda rng, text: text + rng.choice([b"", b"\n", b",", b" "]) + text,
    "line_ends": lambda rng, text: text + rng.choice([b"\n", b"\r\n", b"\r", b"\n\n", b"\r\n\r\n", b" \n"]),
    "white_space_before": lambda rng, text: rng.choice([b" ", b"\t", b"\r\n", b"\n \n", b"\x0b", b"\xc2\xa0"]) + text,
    "noise": lambda rng, text: rng.randbytes(rng.choice([1, 10, 1000, 100_000])),
    "another": lambda rng, text: rng.choice(OTHERS),
}


# ---- changes of compact texts


def of_parts(change):
    """Makes a change of texts from a change of the parts of a compact text."""
    def changed(rng, text):
        parts = text.split(b".")
        if len(parts) not in (3, 5) or text.startswith(b"{"):
            return None
        return b".".join(change(rng, parts, rng.randrange(len(parts))))

    return changed


def parts_exchanged(rng, parts, place):
    other = rng.randrange(len(parts))
    parts[place], parts[other] = parts[other], parts[place]
    return parts


def part_of_another(rng, parts, place):
    other = rng.choice([one for one in OTHERS if one.count(b".") == len(parts) - 1 and not one.startswith(b"{")])
    return parts[:place] + [other.split(b".")[place]] + parts[place + 1:]


OF_PARTS = {
    "part_dropped": of_parts(lambda rng, parts, place: parts[:place] + parts[place + 1:]),
    "part_doubled": of_parts(lambda rng, parts, place: parts[:place] + parts[place:place + 1] + parts[place:]),
    "parts_exchanged": of_parts(parts_exchanged),
    "part_emptied": of_parts(lambda rng, parts, place: parts[:place] + [b""] + parts[place + 1:]),
    "part_of_another": of_parts(part_of_another),
}


# ---- changes of base64url texts anywhere


def of_base64(change):
    """Makes a change of texts from a change of a run of base64url characters."""
    def changed(rng, text):
        runs = list(re.finditer(rb"[A-Za-z0-9_-]{4,}", text))
        if not runs:
            return None
        first, last = rng.choice(runs).span()
        return text[:first] + change(rng, text[first:last]) + text[last:]

    return changed


def other_alphabet(rng, run):
    place = rng.randrange(len(run))
    return run[:place] + rng.choice([b"+", b"/"]) + run[place + 1:]


def trailing_bits(rng, run):
    characters = b"ABCDEFGHIJKLMNOPQRSTUVWXYZabcdefghijklmnopqrstuvwxyz0123456789-_"
    return run[:-1] + bytes([characters[characters.index(run[-1]) ^ 1]])


def of_coded(change):
    """Makes a change of texts from a change of the octets that a base64url text encodes. The changed octets are encoded again."""
    def changed(rng, run):
        try:
            return b64(change(rng, answers.octets_of(run)))
        except Refused:
            return run

    return of_base64(changed)


OF_BASE64 = {
    "padded": of_base64(lambda rng, run: run + b"=" * rng.choice([1, 2, -len(run) % 4])),
    "other_alphabet": of_base64(other_alphabet),
    "line_end_within": of_base64(lambda rng, run: put_in(rng, run, rng.choice([b"\n", b"\r\n", b" "]))),
    "trailing_bits": of_base64(trailing_bits),
}
OF_CODED = {
    "coded_bits_changed": of_coded(bits_changed),
    "coded_octets_cut": of_coded(lambda rng, octets: octets[:-rng.choice([1, 1, 2, 8])]),
    "coded_octets_added": of_coded(lambda rng, octets: octets + rng.choice([b"\0", rng.randbytes(1), rng.randbytes(8), octets])),
}


# ---- changes of JSON texts

MEMBER_NAMES = [
    "alg", "enc", "crit", "zip", "p2c", "p2s", "kid", "kty", "k", "use", "key_ops", "bytes", "keys", "payload", "signature", "signatures", "protected",
    "header", "unprotected", "recipients", "encrypted_key", "iv", "ciphertext", "tag", "aad", "b64", "x", "",
]
ALGORITHMS = [*answers.SIGNATURES, *answers.MANAGEMENT, *answers.CONTENTS, "none", "RSA1_5", "ECDH-ES", "hs256", "A128KW ", ""]
WORDS = {
    "alg": ALGORITHMS,
    "enc": ALGORITHMS,
    "use": ["sig", "enc", "SIG", ""],
    "kty": ["oct", "RSA", "OCT", ""],
    "key_ops": [[], *([one] for one in ("sign", "verify", "wrapKey", "unwrapKey", "encrypt", "decrypt", "deriveKey", "deriveBits", "x"))],
}
NUMBERS = [Raw(one) for one in (
    "0", "1", "7", "64", "4096", "4097", "2147483648", "9007199254740993", "9223372036854775808", "18446744073709551615", "18446744073709551616", "-1",
    "-9223372036854775808", "-9223372036854775809", "-0", "1.0", "1.5", "1e2", "1E400", "-1e400", "1e-400", "01", "+1", "0x10", ".5", "1.", "NaN",
    "1" + "0" * 299, "1" + "0" * 400, "9" * 5000,
)]
COUNTS_OF_ITERATIONS = [Raw(one) for one in (
    "0", "1", "10", "999", "1000", "1001", "4000", "250000", "250001", "2000001", "16000001", "4294967296", "4294968296", "18446744073709551615",
    "18446744073709551616", "-1", "1000.0", '"1000"',
)]
MOST_COUNT = Raw("2000000")
LEVELS = [10, 63, 64, 65, 126, 127, 128, 129, 10_000]
LENGTHS = [1024, 5462, 5463, 5464, 65_536, 1_000_000]
ITEMS = [2, 2, 2, 63, 64, 64, 65, 65, 255, 256, 257, 1000]
HEADERS = "protected", "unprotected", "header"


def quote(text):
    """A string as JSON. Halves of surrogate pairs have no UTF-8, so a string with one is escaped."""
    try:
        return json.dumps(text, ensure_ascii=False).encode().decode()
    except UnicodeEncodeError:
        return json.dumps(text)


def dump(tree, gap=lambda: "", quote=quote):
    """The text of a tree, with white space from `gap` between its tokens."""
    if isinstance(tree, Raw):
        return tree
    if isinstance(tree, str):
        return quote(tree)
    if isinstance(tree, Members):
        return "{" + gap() + ",".join(gap() + dump(name, gap, quote) + gap() + ":" + gap() + dump(one, gap, quote) + gap() for name, one in tree) + "}"
    if isinstance(tree, list):
        return "[" + gap() + ",".join(gap() + dump(one, gap, quote) + gap() for one in tree) + "]"
    return json.dumps(tree)


def tree_of(text):
    try:
        return answers.read_tree(text)
    except (ValueError, RecursionError):
        return None


def places(tree):
    """The places of the values in a tree: for each, the list that has it and its index."""
    found, left = [], [tree]
    while left:
        one = left.pop()
        for index, inner in enumerate(one) if isinstance(one, list) else ():
            place = (inner, 1) if isinstance(one, Members) else (one, index)
            found.append(place)
            left.append(place[0][place[1]])
    return found


def objects(tree):
    return [one for one in [tree, *(holder[index] for holder, index in places(tree))] if isinstance(one, Members)]


def pairs(tree):
    return [pair for one in objects(tree) for pair in one]


class NothingThere(Exception):
    """Raised if a change finds nothing to change in a text."""


def one_of(rng, found):
    if not found:
        raise NothingThere
    return rng.choice(found)


def of_tree(change):
    """Makes a change of texts from a change of the tree of a JSON text. That function changes the tree and returns True, or returns the new
    text, or None."""
    @functools.wraps(change)
    def changed(rng, text):
        tree = tree_of(text)
        if not isinstance(tree, list) or not places(tree):
            return None
        try:
            done = change(rng, tree)
        except NothingThere:
            return None
        return None if done is None else (dump(tree) if done is True else done).encode()

    return changed


def any_value(rng, old="x"):
    return rng.choice([None, True, False, Raw("0"), "", "x", [], Members(), [[]], Members([["a", Raw("1")]]), [old], Members([["x", old]])])


def put(rng, tree, value):
    """Puts the value in place of another, or into a new member."""
    holders = objects(tree)
    if holders and rng.random() < 0.5:
        rng.choice(holders).append([rng.choice(["x", "kid", "cty"]), value])
    else:
        holder, index = rng.choice(places(tree))
        holder[index] = value
    return True


@of_tree
def member_doubled(rng, tree):
    holder = one_of(rng, [one for one in objects(tree) if one])
    name, old = rng.choice(holder)
    holder.insert(rng.randrange(len(holder) + 1), [name, rng.choice([old, any_value(rng, old)])])
    return True


@of_tree
def member_dropped(rng, tree):
    holder = one_of(rng, [one for one in objects(tree) if one])
    holder.pop(rng.randrange(len(holder)))
    return True


@of_tree
def members_exchanged(rng, tree):
    if len(pairs(tree)) < 2:
        return None
    first, second = rng.sample(pairs(tree), 2)
    first[1], second[1] = second[1], first[1]
    # One may have been inside the other.
    return True if tree_is_finite(tree) else None


def tree_is_finite(tree):
    try:
        dump(tree)
        return True
    except RecursionError:
        return False


@of_tree
def member_renamed(rng, tree):
    pair = one_of(rng, pairs(tree))
    pair[0] = rng.choice([rng.choice(MEMBER_NAMES), pair[0] + "x", pair[0][:-1], pair[0].upper(), pair[0] + "\0"])
    return True


@of_tree
def member_added(rng, tree):
    holder = one_of(rng, objects(tree))
    holder.insert(rng.randrange(len(holder) + 1), [rng.choice(MEMBER_NAMES), any_value(rng)])
    return True


@of_tree
def type_changed(rng, tree):
    holder, index = rng.choice(places(tree))
    holder[index] = any_value(rng, holder[index])
    return True


@of_tree
def nested(rng, tree):
    left, right, step = rng.choice([("[", "]", 1), ('{"a":', "}", 1), ('[{"":', "}]", 2)])
    times = rng.choice(LEVELS) // step
    return put(rng, tree, Raw(left * times + rng.choice(["0", "[]"]) + right * times))


@of_tree
def number_put(rng, tree):
    found = [pair for pair in pairs(tree) if pair[0] in ("bytes", "p2c")]
    if not found or rng.random() < 0.3:
        return put(rng, tree, rng.choice(NUMBERS))
    rng.choice(found)[1] = rng.choice(NUMBERS)
    return True


@of_tree
def iterations_put(rng, tree):
    found = [pair for pair in pairs(tree) if pair[0] == "p2c"]
    holders = [one for name, one in pairs(tree) if name in HEADERS and isinstance(one, Members)]
    value = MOST_COUNT if rng.random() < 0.05 else rng.choice(COUNTS_OF_ITERATIONS)
    if found:
        rng.choice(found)[1] = value
    elif holders:
        rng.choice(holders).append(["p2c", value])
    else:
        return None
    return True


@of_tree
def long_name(rng, tree):
    holder = one_of(rng, objects(tree))
    name = rng.choice(["A", "\u00e9", "\0"]) * (rng.choice(LENGTHS) // 6)
    if holder and rng.random() < 0.5:
        rng.choice(holder)[0] = name
    else:
        holder.append([name, any_value(rng)])
    return True


@of_tree
def long_string(rng, tree):
    strings = [(holder, index) for holder, index in places(tree) if isinstance(holder[index], str)]
    holder, index = rng.choice(strings or places(tree))
    holder[index] = rng.choice(["A", "A", "A", "\0", "\u00e9"]) * (rng.choice(LENGTHS))
    if holder[index][0] != "A":
        holder[index] = holder[index][:len(holder[index]) // 6]
    return True


@of_tree
def many_values(rng, tree):
    return put(rng, tree, Raw("[" + ",".join([rng.choice(["0", '""', "[]", "{}", "[0]", '{"":0}'])] * rng.choice([1000, 1000, 1000, 20_000])) + "]"))


@of_tree
def half_of_a_surrogate_pair(rng, tree):
    holder, index = rng.choice(places(tree) + [(pair, 0) for pair in pairs(tree)])
    text = holder[index] if isinstance(holder[index], str) else ""
    holder[index] = Raw(quote(text)[:-1] + rng.choice([r"\ud800", r"\udfff", r"\udc00\ud800", r"\ud800\u0041"]) + '"')
    return True


@of_tree
def word_changed(rng, tree):
    pair = one_of(rng, [pair for pair in pairs(tree) if pair[0] in WORDS])
    pair[1] = rng.choice(WORDS[pair[0]])
    return True


def header_of(value):
    """The members of a header, which may be encoded, or None if this is no header."""
    if isinstance(value, Members):
        return value
    try:
        tree = answers.read_tree(answers.octets_of(value.encode())) if isinstance(value, str) and value else None
    except (Refused, ValueError, RecursionError):
        return None
    return tree if isinstance(tree, Members) else None


@of_tree
def moved(rng, tree):
    """Moves or copies a member of one header to another."""
    found = [(pair, header_of(pair[1])) for pair in pairs(tree) if pair[0] in HEADERS]
    source, members = one_of(rng, [(pair, members) for pair, members in found if members])
    others = [(pair, one) for pair, one in found if pair is not source and one is not None]
    target, other = rng.choice(others) if others else ([rng.choice([name for name in HEADERS if name != source[0]]), Members()], Members())
    if not others:
        rng.choice([one for one in objects(tree) if any(pair is source for pair in one)]).append(target)
    other.append(members.pop(rng.randrange(len(members))) if rng.random() < 0.8 else rng.choice(members))
    for pair, one in (source, members), (target, other):
        is_text = isinstance(pair[1], str) or pair[0] == "protected" and pair is target and not others
        pair[1] = b64(dump(one).encode()).decode() if is_text else one
    return True


@of_tree
def many(rng, tree):
    """Repeats keys, signatures or recipients many times."""
    count = rng.choice(ITEMS)
    for pair in tree if isinstance(tree, Members) else ():
        if pair[0] in ("keys", "signatures", "recipients") and isinstance(pair[1], list) and pair[1]:
            pair[1] = (pair[1] * count)[:rng.choice([count, count * len(pair[1])])]
            return True
    names = [name for name, _ in tree] if isinstance(tree, Members) else []
    for name, listed, moving in ("k", "keys", None), ("signature", "signatures", ["header", "protected", "signature"]), ("ciphertext", "recipients", ["header", "encrypted_key"]):
        if name in names:
            item = Members([one for one in tree if moving is None or one[0] in moving])
            return dump(Members([one for one in tree if moving is not None and one[0] not in moving] + [[listed, [item] * count]]))
    return None


def header_changed(rng, text):
    """Changes the JSON text of a protected header, and encodes it again."""
    tree = None if not text.startswith(b"{") else tree_of(text)
    if text.startswith(b"{"):
        found = [pair for pair in pairs(tree) if pair[0] == "protected" and isinstance(pair[1], str) and pair[1]] if isinstance(tree, list) else []
        if not found:
            return None
        pair = rng.choice(found)
        old = pair[1].encode(errors="surrogatepass")
    else:
        old, dot, rest = text.partition(b".")
        if not dot:
            return None
    try:
        header = answers.octets_of(old)
    except Refused:
        return None
    changed = rng.choice(HEADER_CHANGES)(rng, header)
    if changed is None or changed == header:
        return None
    if tree is None:
        return b64(changed) + dot + rest
    pair[1] = b64(changed).decode()
    return dump(tree).encode()


# ---- changes that keep the meaning


def spaced(rng, text):
    tree = tree_of(text)
    return dump(tree, lambda: rng.choice(["", "", " ", "\n", "\t", "\r\n  "])).encode() if isinstance(tree, list) else None


@of_tree
def in_another_order(rng, tree):
    for one in objects(tree):
        rng.shuffle(one)
    return True


@of_tree
def escaped(rng, tree):
    def shown(text):
        return '"' + "".join(quote(one)[1:-1] if rng.random() < 0.5 or ord(one) > 0xffff else f"\\u{ord(one):04x}" for one in text) + '"'

    return dump(tree, quote=shown)


@of_tree
def repeated_before(rng, tree):
    holder = one_of(rng, [one for one in objects(tree) if one])
    place = rng.randrange(len(holder))
    holder.insert(rng.randrange(place + 1), [holder[place][0], any_value(rng)])
    return True


def named(*functions):
    return {one.__name__: one for one in functions}


KEEPING = named(spaced, in_another_order, escaped, repeated_before)
OF_JSON = named(
    member_doubled, member_dropped, members_exchanged, member_renamed, member_added, type_changed, nested, number_put, iterations_put, long_name, long_string,
    many_values, half_of_a_surrogate_pair, word_changed, moved, many)
# How often a change comes, if it comes more often than others.
OFTEN = {"iterations_put": 3, "moved": 2}


def several(changes):
    """The names and the functions of the changes, each as often as it comes."""
    return [it for it in changes.items() for _ in range(OFTEN.get(it[0], 1))]


HEADER_CHANGES = [one for name, one in several(OF_JSON) if name != "many_values"] + [*KEEPING.values()] + [
    OF_OCTETS[name] for name in ("cut", "bits_changed", "bad_utf8_put_in", "twice", "emptied")]
# Kinds of changes, each with its weight among the others.
KINDS = [(OF_OCTETS, 2), (OF_PARTS, 6), (OF_BASE64, 1), (OF_CODED, 2), (OF_JSON, 6), (named(header_changed), 2), (KEEPING, 2)]
SPOILING = [name for kind, _ in KINDS if kind is not KEEPING for name in kind]


def change(rng, text):
    """The text after a random change that applies to it, and the name of the change."""
    kinds, weights = zip(*((several(kind), weight) for kind, weight in KINDS))
    while True:
        name, one = rng.choice(rng.choices(kinds, weights)[0])
        changed = one(rng, text)
        if changed is not None and changed != text and len(changed) < MOST:
            return changed, name
