"""Makes tokens with claims at random from a seed, most of them at an edge: dates around the time of the check and around what a double holds, texts
with escapes, lists, repeated names, and JSON that is slightly wrong. The judges of all languages (lib/claims) must say the same of each, but for what
examples/claims/cases.json lists with a reason in `differs`. scripts/bindings runs it, with what lib/services.py built.
"""
import collections, concurrent.futures, decimal, json, random, time

from lib.services import EXAMPLES, judged
from lib.standards import RFC7515_KEY
from lib.texts import flattened, signed
from lib.trial import check, left_out

# Fewer of an answer would show that the generator has no edge there.
FEWEST = 100
NOW = 1800000000
# The cases in which some parsers refuse what others take, and what those that refuse say.
DEEP, ZERO_IN_HEADER = "128 lists in each other", "a zero octet in a name of the header"
REFUSED = {DEEP: "claims", ZERO_IN_HEADER: "typ"}
# Up to so many lists or objects in each other are taken in each language, and above the other number in none.
FEW_LISTS, MANY_LISTS = 127, 10000
TEXTS = ["login", "api", "\u00e9\U0001f600", 'a"b\\c/d', "\ufffd", "0", "true", "null", "[]", " x", "\u212a", "https://a.example/"]
TYPES = ["JWT", "at+jwt", "application/at+jwt", "APPLICATION/jwt", "application/application/jwt", "text/jwt", "x y", "jwk", "secevent+jwt", "\u00e9"]
WRONG_NUMBERS = ["01", "+1", ".5", "5.", "1e", "1e+", "0x7fffffff", "NaN", "Infinity", "-Infinity", "-", "--1", "1_0", "1 0", "\u0661", "1.e5", "1e5.5", "1l", "1,5", "00", "-01"]
HUGE_NUMBERS = ["1e400", "-1e400", "1e309", "1.7976931348623159e308", "9" * 309, f"-{'9' * 400}", "1e99999999999999999999", "9" * 5000]
GREAT_NUMBERS = ["1e300", "1.7976931348623157e308", "1e308", "9" * 308, "-1e300", "0e99999999999", "1e-400", "-0", "-0.0", "0.0", "0", "1", "-1", f"1{'0' * 400}e-391", f"0.{'0' * 400}18e410", "5e-324"]
POWERS = [2 ** power + more for power in (31, 32, 53, 54, 63, 64, 65) for more in (-2, -1, 0, 1, 2)]


class Maker:
    """Makes one token after the other. `differs` has what some parsers may refuse in the one that is made."""

    def __init__(self, seed):
        self.random, self.differs = random.Random(seed), set()

    def often(self, percent):
        return self.random.random() * 100 < percent

    def one(self, *choices):
        return self.random.choice(choices)

    # ---- pieces of JSON

    def space(self):
        return "" if self.often(90) else "".join(self.random.choices(" \t\r\n", k=self.random.randint(1, 3)))

    def escaped(self, character):
        """The character as JSON may write it: as it is, or as an escape."""
        units = character.encode("utf-16-be").hex()
        hexadecimal = "".join(f"\\u{self.one(units[at:at + 4], units[at:at + 4].upper())}" for at in range(0, len(units), 4))
        short = {'"': '\\"', "\\": "\\\\", "/": "\\/", "\n": "\\n", "\t": "\\t", "\r": "\\r", "\b": "\\b", "\f": "\\f"}
        if character < " " or character in '"\\':
            return self.one(hexadecimal, short.get(character, hexadecimal))
        return hexadecimal if self.often(8) else short.get(character, character) if self.often(8) else character

    def text(self, text):
        return '"' + "".join(map(self.escaped, text)) + '"'

    def half(self, text=""):
        """A text with half a surrogate pair, alone or beside other escapes."""
        half = self.one("\\ud800", "\\uDFFF", "\\uDBFF", "\\udc00\\ud800", "\\ud83d\\ud83d\\ude00", "\\ud83d\\\\ude00", "\\ud800\\u0041", "\\\\\\ud800")
        return f'"{text}{half}"' if self.often(50) else f'"{half}{text}"'

    def date(self, *edges):
        edge = self.one(*edges)
        kind = self.random.randrange(12)
        if kind < 3:
            return str(int(edge) + self.one(-2, -1, 0, 0, 1, 2))
        if kind < 6:
            # Next to a double, and next to the middle between two: who rounds otherwise takes another one.
            value = decimal.Decimal(edge) + decimal.Decimal(self.random.randint(-6, 6)) / 2 ** 23 + self.one(-1, 0, 1) * decimal.Decimal(10) ** -self.random.randint(8, 40)
            return format(value, "f")
        if kind == 6:
            digits = str(int(edge) + self.one(-1, 0, 1))
            sign, digits = ("-", digits[1:]) if digits[0] == "-" else ("", digits)
            return sign + self.one(f"{digits[0]}.{digits[1:] or 0}e{len(digits) - 1}", f"{digits[0]}.{digits[1:] or 0}E+{len(digits) - 1}", f"{digits}.0", f"{digits}.000000e0", f"{digits}00e-2", f"{digits}e0", f"{digits}E-0")
        if kind == 7:
            return str(self.one(*POWERS) * self.one(1, 1, -1))
        if kind == 8:
            return self.one(*GREAT_NUMBERS)
        return str(edge + self.random.randint(-10 ** 6, 10 ** 6) / self.one(1, 7, 10, 1000, 2 ** 20))

    def value(self, depth=0):
        """A value of any kind, such as no claim has."""
        kind = self.random.randrange(10 if depth < 3 else 6)
        if kind == 0:
            return self.one("null", "true", "false")
        if kind == 1:
            return self.one(*GREAT_NUMBERS, *map(str, POWERS))
        if kind == 2:
            return self.text(self.one(str(NOW), str(NOW + 100), "1e9", "", "NaN", "-0", "0x10", "true", *TEXTS))
        if kind == 3:
            return self.text("".join(self.random.choices('ab\u00e9\u2028\uffff\U0010ffff"\\/\n\x00\x1f\x7f', k=self.random.randint(0, 6))))
        if kind == 4:
            return self.one("[]", "{}", "[[]]", "[{}]", '{"":{}}', '[""]', "[null]")
        if kind == 5:
            return self.date(NOW)
        if kind < 8:
            return "[" + ",".join(self.value(depth + 1) for _ in range(self.random.randint(0, 3))) + "]"
        return "{" + ",".join(f"{self.text(self.name())}:{self.value(depth + 1)}" for _ in range(self.random.randint(0, 3))) + "}"

    def name(self):
        return self.one("exp", "nbf", "iss", "aud", "iat", "typ", "crit", "sub", "jti", "x", "", "EXP", "exp ", "Exp", "__proto__", "constructor", "toString", "length",
                        "$serde_json::private::Number", "$serde_json::private::RawValue", "\u00e9xp", "e", "exp\ufeff")

    def strange(self):
        """A value that some parsers refuse, or that all must refuse."""
        kind = self.random.randrange(7)
        if kind == 0:
            return self.one(*WRONG_NUMBERS)
        if kind == 1:
            return self.one(*HUGE_NUMBERS)
        if kind == 2:
            return self.half()
        if kind == 3:
            return '{"%s":1}' % self.one("\\u0000", "exp\\u0000", "a\\\\\\u0000b")
        if kind == 4:
            # The outermost object is one of them.
            lists = self.one(50, 100, FEW_LISTS - 1, FEW_LISTS, FEW_LISTS + 1, 400, 500, 900, 1100, 2047, 2100, MANY_LISTS + 1) if self.often(30) else self.random.randint(1, FEW_LISTS - 1)
            if FEW_LISTS <= lists <= MANY_LISTS:
                self.differs.add(DEEP)
            return self.one("[" * lists + "]" * lists, '{"a":' * lists + "1" + "}" * lists)
        if kind == 5:
            return self.one('"\x01"', '"\n"', '"\\x41"', '"\\u12"', '"\\u+123"', "'a'", "a", "nul", "True", "undefined", '"\\', '"a', "[1,]", "[,1]", "{,}", '{"a"}', '{"a":}', "{a:1}", "[1 2]", "/**/1", "[", "}")
        return self.one('"\udcff"', '"\udcc0\udcaf"', '"\udced\udca0\udc80"', '"\udcf4\udc90\udc80\udc80"', '"\udce2\udc82"', "\udcef\udcbb\udcbf1")

    def near(self, text):
        """A text next to the expected one."""
        return self.one(text + "\x00", text + " ", " " + text, text[:-1], text.upper(), text.lower(), text.swapcase(), "", "e\u0301\U0001f600", "\ufffd", text + text, "\u017fecevent+jwt", "jw\u212a", *TEXTS)

    # ---- claims

    def issuer(self, expected):
        if self.often(75):
            return self.text(expected)
        return self.text(self.near(expected)) if self.often(60) else self.half(expected) if self.often(20) else self.value()

    def audience(self, expected):
        if self.often(40):
            return self.issuer(expected)
        names = [self.issuer(expected) if self.often(70) else self.text(self.near(expected)) for _ in range(self.random.randint(0, 4))]
        if self.often(15):
            names.insert(0, self.value())
        if self.often(10):
            names = [f"[{','.join(names)}]"]
        return f"[{','.join(f'{self.space()}{it}{self.space()}' for it in names)}]"

    def claims(self, now, leeway, issuer, audience):
        """The text of the claims."""
        def aud():
            return self.audience(audience or "api")

        members = [("exp", self.date(NOW + 10 ** 6, 2 ** 31, 2 ** 53) if self.often(60) else self.date(now - leeway))] * (not self.often(3))
        if self.often(40):
            members.append(("nbf", self.date(0, now - 10 ** 6) if self.often(50) else self.date(now + leeway)))
        if self.often(90 if issuer else 20):
            members.append(("iss", self.issuer(issuer or "login")))
        if self.often(90 if audience else 8):
            members.append(("aud", aud()))
        for name in "iat", "typ", "crit", "sub", "jti":
            if self.often(12):
                members.append((name, self.value()))
        if self.often(20):
            members.append((self.name(), self.value()))
        if self.often(12):
            at = self.random.randrange(len(members)) if members else None
            if at is not None:
                members[at] = members[at][0], self.value()
        if self.often(15) and members:
            # Of a repeated name the last member counts.
            name, value = self.one(*members)
            members.insert(self.random.randint(0, len(members)), (name, self.one(value, self.value(), self.date(now), aud())))
        if self.often(12):
            members.insert(self.random.randint(0, len(members)), (self.one("x", "sub", "exp", "iss", "aud"), self.strange()))
        if self.often(30):
            self.random.shuffle(members)
        written = [f"{self.space()}{self.text(name)}{self.space()}:{self.space()}{value}" for name, value in members]
        if self.often(2):
            written.insert(0, self.one('"\\ud800":1', '"exp\\u0000":4000000000', '"\\u0000" :1', '"a\\"\\u0000\\"":{}', '"a":"\\u0000"', '"a":["\\u0000","b"]', '"\\\\u0000":1', '"\\\\ud800":1'))
        text = self.space() + "{" + ",".join(written) + "}" + self.space()
        if self.often(4):
            place = self.random.randint(0, len(text))
            text = self.one(text[:-1], text + self.one("x", ",", "}", "\x00", "\x0b", "\x0c", "\u00a0", "\ufeff", text, "null"), "\ufeff" + text, "\x0c" + text, f"[{text}]", f'"{NOW}"', str(NOW), "null", "[]", "",
                            text.replace("}", ",}", 1), text[:place] + text[place + 1:], text[:place] + self.one(*' \t{}[]",:\\0-e.') + text[place:])
        return text.encode("utf-8", "surrogateescape")

    def header(self, expected):
        members = ['"alg":"HS256"']
        if self.often(85 if expected else 40):
            kind = expected or "JWT"
            kind = kind if self.often(60) else self.one(f"application/{kind}", kind.upper(), kind.lower(), kind.removeprefix("application/"), self.near(kind), self.one(*TYPES))
            members.append(f'"{self.one("typ", "typ", "typ", chr(92) + "u0074yp")}":{self.text(kind) if self.often(90) else self.value()}')
        if self.often(10):
            members.append(f"{self.text(self.name())}:{self.value()}")
        if self.often(2):
            members.append(self.one('"crit":["exp"],"exp":1', '"crit":[]', '"b64":false', '"b64":true', '"alg":"none"', '"zip":"DEF"', '"crit":["b64"],"b64":true'))
        if self.often(1):
            self.differs.add(ZERO_IN_HEADER)
            members.append('"x\\u0000":1')
        if self.often(1):
            members.append(f'"x":{self.one("[" * 126 + "]" * 126, "1e400", self.one(*WRONG_NUMBERS), "2e308", "9" * 400)}')
        if self.often(30):
            self.random.shuffle(members)
        return ("{" + ",".join(members) + "}").encode("utf-8", "surrogateescape")

    def line(self):
        """A line for the judges, with what it was made from."""
        self.differs = set()
        now = self.one(NOW, NOW, NOW, NOW + 0.5, NOW + 0.1, NOW + 2.0 ** -22, 0, -5, 2.0 ** 53, 2.0 ** 53 + 2, 2.0 ** 63)
        leeway = self.one(0, 0, 0, 60, 0.5, 0.1, 2.0 ** -23, 1e9)
        issuer, audience = (self.one(*TEXTS[:2], *TEXTS) if self.often(60) else None for _ in range(2))
        typ = self.one(*TYPES) if self.often(30) else None
        claims, header = self.claims(now, leeway, issuer, audience), self.header(typ)
        token = signed(claims, header)
        if self.often(2):
            parts = token.split(b".")
            token = self.one(flattened(token) if claims else token, token + b".", token + b"=", b"." + token, token[:-1], b".".join(parts[:2]) + b".", b".".join(parts + parts[2:]), token.replace(b".", b"..", 1), token + b" ")
        if self.often(2):
            issuer, audience, typ, leeway = self.one(("", audience, typ, leeway), (issuer, "", typ, leeway), (issuer, audience, self.one("", "application/", "APPLICATION/"), leeway), (issuer, audience, typ, self.one("NaN", "-1", "Infinity")))
        fields = [now, leeway, *("-" if it is None else it for it in (issuer, audience, typ)), token.decode()]
        return "\t".join(map(str, fields)), self.differs, (header, claims, fields[:5])


def listed():
    """The cases in which parsers differ must be in the file, with two answers and a reason."""
    cases = {it["case"]: it for it in json.loads((EXAMPLES / "claims/cases.json").read_text())}
    return [name for name, refused in REFUSED.items() if name not in cases or not cases[name].get("differs") or cases[name]["answer"] != ["yes", refused]]


def agree(answers, differs):
    """Whether all languages say the same, or some refuse what the others judge alike."""
    return len(set(answers)) == 1 or len(set(answers) - {REFUSED[it] for it in differs}) == 1


def compare(seed, count, all_built):
    if len(all_built) < 2:
        return left_out("the comparison of claims", "fewer than two languages are built")
    began, maker = time.monotonic(), Maker(seed)
    lines, differs, made = zip(*(maker.line() for _ in range(count)))
    with concurrent.futures.ThreadPoolExecutor(len(all_built)) as pool:
        found = list(pool.map(lambda built: judged(built.judge, RFC7515_KEY.decode(), lines, built.environment), all_built))
    problems = [f"{name} is not in cases.json with a reason" for name in listed()]
    problems += [f"{built.name}: {len(answers)} answers, {errors}" for built, (answers, errors) in zip(all_built, found) if len(answers) != count]
    rows = list(zip(*(answers for answers, _ in found)))
    problems += [f"{dict(zip((it.name for it in all_built), answers))} of {it}" for answers, allowed, it in zip(rows, differs, made) if not agree(answers, allowed)]
    counts = collections.Counter(answers[0] for answers in rows)
    problems += [f"only {counts[it]} are {it}" for it in ("yes", "claims", "typ", "exp", "nbf", "iss", "aud", "expected") if counts[it] < min(FEWEST, count // 400)]
    other = sum(len(set(answers)) > 1 and agree(answers, allowed) for answers, allowed in zip(rows, differs))
    told = ", ".join(f"{it} {number}" for it, number in counts.most_common(9))
    what = f"{count} claims that are made from {seed} are judged alike in {', '.join(it.name for it in all_built)}, but for {other} listed differences ({told}; {time.monotonic() - began:.0f} s)"
    check(what, [f"{len(problems)} problems", *problems[:6]] if problems else [])
