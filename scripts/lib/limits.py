"""Compares the limits that the pages, the documents, the recipes and the bindings state with the code's.

A limit is found by the words around it, which are those of `STATED`. It is a failure if a number of three digits or more is equal to a
limit and is in other words. Then add these words to `STATED`, or to `OTHERS` if the number is no limit. docs/PERFORMANCE.md,
docs/DECISIONS.md and CHANGELOG.md are not compared, since they say what was measured, chosen and changed.

lakhdzeva.c repeats limits in its code, in rooms and draws of random octets. Each place of `CODE` must be there, with the number that it has
now. The bindings have the numbers and the names of the refusals.
"""
import re

from lib.manual import plain
from lib.trial import TOP, check

TEXTS = ["README.md", "SECURITY.md", "docs/SPECIFICATION.md", "docs/LIBRARY.md", "docs/FROM-LATCHSET.md", "docs/ARCHITECTURE.md", "docs/PROOFS.md"]
HEADER, SOURCE, PYTHON, GO = "bindings/c/lakhdzeva.h", "bindings/c/lakhdzeva.c", "bindings/python/src/lakhdzeva/refusals.py", "bindings/go/lakhdzeva.go"
FILES = ["man/*.1", *TEXTS, "examples/*.sh", HEADER, "bindings/python/src/lakhdzeva/*.py", "bindings/rust/src/*.rs", GO, "bindings/go/keys.go", "bindings/*/README.md"]
NUMBER = r"\d+(?:,\d{3})*"
# A number must not be part of a word, a name, a power or a longer number. These patterns exclude that before and behind it.
BEFORE, BEHIND = r"(?<![\w^,.-])", r"(?![\w,.]*\d)"

# How a limit is stated: a pattern with the name of the limit in place of its number.
STATED = [
    "(at most|more than|1 to|and) {MOST_KEYS} keys",
    "at most {MOST_KEYS} objects",
    "if there are more than {MOST_KEYS};",
    "(more than|up to) {MOST_KEYS} hosts",
    "{MOST_RECIPIENTS} (recipients|signatures)",
    "{MOST_RECIPIENTS} times {MOST_KEYS}",
    "{PAIRS} (pairs|HMACs|of each other)",
    "PBKDF2, from {LEAST_P2C} to {GREATEST_P2C}",
    "[Aa] key has at most {MOST_KEY_OCTETS} (octets|bytes)",
    "(text of|each of|in (octets|bytes), from) 1 to {MOST_KEY_OCTETS}",
    "bytes is above {MOST_KEY_OCTETS}",
    "nests? (at most|more than) {MOST_DEPTH} deep",
    "deeper than {DEPTH_READ}",
    "JSON that is read at most {DEPTH_READ}",
    "JSON value at most {DEPTH_READ} deep",
    "((jwe enc|ours) writes|says, from|template, from|is outside) {LEAST_P2C} to {GREATEST_P2C}",
    "by default, and up to {GREATEST_P2C}",
    "{USUAL_P2C} (by default|is little)",
    "(gets|takes) {USUAL_P2C} iterations",
    "(guessing:|a p2c of) {USUAL_P2C}",
    "(dec reads|a pair has) at most {GREATEST_P2C_READ}",
    "and reads 1 to {GREATEST_P2C_READ}",
    "that fits asks for more than {GREATEST_P2C_READ}",
    "p2c above {GREATEST_P2C_READ}",
    "(all together have|one call take|bound:) at most {MOST_ITERATIONS}",
    "(pairs together for|neither does) more than {MOST_ITERATIONS}",
    "(sum is|sum over them|or) above {MOST_ITERATIONS}",
    "may ask for {MOST_ITERATIONS} iterations",
    "{MOST_ITERATIONS} iterations,? took",
    "at most {MOST_ITERATIONS} in a call",
    "pieces of( at most| PIECE,)? {PIECE} (octets|bytes)",
    "holds? {PIECE} (octets|bytes)",
    "reader takes up to {PIECE}",
    "at most its last {MOST_BEHIND} octets",
    "at most {MOST_BEHIND} octets are missing",
    "{GREATEST_P2C_READ} for each recipient, and {MOST_ITERATIONS} in all",
    "greater number means {MOST_ITERATIONS}",
    "password takes {USUAL_P2C} iterations",
    "a template for at most {MOST_KEY_OCTETS}",
]
# Statements in which the same number is no limit.
OTHERS = [
    "[Tt]heirs writes 1,000",
    "(token of|Parts have) 100,000 (octets|bytes)",
    "256 KiB of stack",
    "(of|in) [(]?224, 256, 384",
    '("S256":|Sha256 =>|Hash =|255,) 256',
    "template once, and 256 bytes or less for a recipient",
    "[+] 2[)] [*] 256",
]
# The places of limits in the code of lakhdzeva.c. A first draw of 64 octets suffices for each algorithm.
CODE = {
    SOURCE: [
        "return keys < {MOST_KEYS} ? keys : {MOST_KEYS};", "return each > SIZE_MAX / {MOST_KEYS} ?", "return sum(template_length, {KEY_ROOM});",
        "uint8_t random[{MOST_KEY_OCTETS}];", "most = 64; most <= sizeof random && status == LAKHDZEVA_RANDOM; most *= {DRAWS})",
        "uint8_t random[80 + 16 * {MOST_KEYS}];",
    ],
}
# How the bindings have a refusal: its number N, its name, and its name with underscores. In Go two names are other ones.
REFUSALS = {
    HEADER: ["LAKHDZEVA_{UPPER} = {N}"], SOURCE: ['"{NAME}",'], PYTHON: ["class {NAME}(Refused):", "number = {N}\n"], GO: [" Refusal = C.LAKHDZEVA_{UPPER}\n"],
    "bindings/rust/src/refusal.rs": ["Refusal::{NAME} => {N},"],
}


def number_in(path, line):
    return int(re.search(line, (TOP / path).read_text(), re.M)[1].replace("_", ""))


def limits():
    """The limits by their names. It is proved that those of `keys` are the limits of the definition, keys/specs/Limits.antt."""
    found = {name: int(value.replace("_", "")) for name, value in re.findall(r"^pub const (\w+): \w+ = ([\d_]+);", (TOP / "crates/keys/src/limits.rt").read_text(), re.M)}
    found["PAIRS"] = found["MOST_RECIPIENTS"] * found["MOST_KEYS"]
    found["DEPTH_READ"] = number_in("crates/keys/specs/JsonTexts.antt", r"^ReadsJson = .*depth d ≤ (\d+)")
    found["PIECE"] = number_in("crates/octets/src/sizes.rt", r"^pub const PIECE: usize = (\d+);")
    found["MOST_BEHIND"] = number_in("crates/octets/specs/Pumps.antt", r"^most_behind = (\d+)")
    return found


def words_of(path):
    """The text in one line, without fonts, backticks and the marks of comments."""
    text = path.read_text()
    return re.sub(r"(?:\s+(?:(?:#|//[/!]?)(?=\s))?)+", " ", plain(text) if path.suffix == ".1" else text.replace("`", ""))


def compare_code(wanted):
    """Compares the limits and the refusals in the code of the bindings. A key that is made has the base64url text of its octets, and 170
    octets of other members that its template did not name."""
    octets = wanted["MOST_KEY_OCTETS"]
    wanted = wanted | {"KEY_ROOM": (4 * octets + 2) // 3 + 170, "DRAWS": octets // 64}
    for file, places in CODE.items():
        text = (TOP / file).read_text()
        check(f"{file}: its code has each limit", [f"no `{it}`" for it in (place.format(**wanted) for place in places) if it not in text])
    refusals = re.findall(r'Refusal::(\w+) => "(\d+) \1"', (TOP / "crates/octets/src/refusal.rt").read_text())
    for file, places in REFUSALS.items():
        text = (TOP / file).read_text()
        each = [place.format(N=number, NAME=name, UPPER=re.sub(r"(?<!^)(?=[A-Z])", "_", name).upper()) for name, number in refusals for place in places]
        if file == SOURCE:
            each.append(" ".join(["Ok", *(name for name, _ in refusals)]))
            text += re.sub(r'[\s",]+', " ", text)
        check(f"{file}: it has each of {len(refusals)} refusals", [f"no `{it.strip()}`" for it in each if it not in text] or ["they cannot be read"] * (not refusals))


def compare():
    wanted = {name: f"{value:,}" for name, value in limits().items()}
    stated = {name: [] for name in wanted}
    compare_code(limits())
    for path in (path for files in FILES for path in sorted(TOP.glob(files))):
        file, text = path.relative_to(TOP), words_of(path)
        left = text
        for words in STATED + OTHERS:
            pattern = BEFORE + words.replace("{", "(?P<").replace("}", f">{NUMBER})") + BEHIND
            for one in re.finditer(pattern, text):
                for name, number in one.groupdict().items():
                    stated[name].append((number, f'{file} has "{one[0]}"'))
            left = re.sub(pattern, "..", left)
        others = [one for one in re.finditer(BEFORE + NUMBER + BEHIND, left) if len(one[0]) > 2 and one[0] in wanted.values()]
        check(f"{file}: each limit that it states is compared", [f'"{left[max(0, one.start() - 40):one.end() + 20]}"' for one in others])
    for name, value in wanted.items():
        check(f"{name} is {value} wherever it is stated", [where for number, where in stated[name] if number != value] or ["it is stated nowhere"] * (not stated[name]))
