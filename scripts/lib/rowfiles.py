"""Reads the rows in crates/rows/data, which CONTRIBUTING.md describes. The program of crate `rows` reads the same files and tries each row."""
import dataclasses, itertools, pathlib, re

from lib.sources import ROOT

FOLDER = pathlib.Path(ROOT) / "crates/rows/data"
INPUTS = "-i", "-I", "-k", "-R"
OUTPUTS = "-o", "-O"
# How an output is compared: its octets after the run, their SHA-256, a text that they begin, or octets that are not finished.
WAYS = "", " sha256", " begins", " holds"
ANSWERS = {"refused", "writes", *(it + way for it in OUTPUTS for way in WAYS)}
# The fields that may stand on several lines of a row, which is then tried with each of their values.
SEVERAL = {"run", *INPUTS}
SETTINGS = {"word", "then", "reads", "room", "fails", "cut", "flip", "least", "calls", "streams", "iterations", "unwraps", "openings"}
FIELDS = {"test", "source", "name", *SEVERAL, *ANSWERS, *SETTINGS}
ATOM = re.compile(
    r"(?:(?P<count>\d+) \* )?(?:'(?P<quoted>[^']*)'|hex (?P<digits>[0-9a-f]*)|(?P<name>[A-Z][A-Z0-9_]*|-[iIkR])(?:\[(?P<start>\d+)\.\.(?P<end>\d+)\])?)")
GIVEN = r"(?::(?: (?P<text>.*))?| = (?P<expression>.*))"


class BadRow(Exception):
    pass


@dataclasses.dataclass
class Row:
    file: str
    line: int
    fields: dict    # the octets of each field, or a list of them for those of SEVERAL and for `word`

    def __str__(self):
        name = self.text("name")
        return f"{self.file}:{self.line}: {self.text('test')}{f', {name}' if name else ''}"

    def get(self, field, default=None):
        return self.fields.get(field, default)

    def text(self, field):
        return self.get(field, b"").decode()

    def numbers(self, field, default=""):
        return [int(it) for it in (self.text(field) or default).split()]

    def tries(self):
        """The words and the inputs of each run that the row asks for."""
        more = self.get("word", [])
        for run, *inputs in itertools.product(*(self.get(it, [b""]) for it in ("run", *INPUTS))):
            yield [*run.split(b" "), *more], dict(zip(INPUTS, inputs))

    def refusal(self):
        """The name of the refusal, without its number."""
        return self.text("refused").partition(" ")[2] or None


class Reader:
    """Reads files in their order. A value may be used in the files after the one that has it."""

    def __init__(self):
        self.values, self.rows = {}, []

    def octets(self, found, inputs=None):
        """The octets that a line gives: the text itself after a colon, and what the expression says after an equals sign."""
        text, expression = found["text"], found["expression"]
        if expression is None:
            return (text or "").encode()
        joined, at = b"", 0
        while True:
            atom = ATOM.match(expression, at)
            if not atom:
                raise BadRow(f"no value: {expression[at:at + 60]}")
            joined, at = joined + self.atom(atom, inputs or {}) * int(atom["count"] or 1), atom.end()
            if at == len(expression):
                return joined
            if not expression.startswith(" + ", at):
                raise BadRow(f"no ` + `: {expression[at:at + 60]}")
            at += 3

    def atom(self, found, inputs):
        if found["quoted"] is not None:
            return found["quoted"].encode()
        if found["digits"] is not None:
            return bytes.fromhex(found["digits"])
        name = found["name"]
        value = inputs.get(name, [b""])[0] if name.startswith("-") else self.values.get(name)
        if value is None:
            raise BadRow(f"no value is named {name}")
        if found["start"] is None:
            return value
        start, end = int(found["start"]), int(found["end"])
        if not start <= end <= len(value):
            raise BadRow(f"{name} has {len(value)} octets")
        return value[start:end]

    def value(self, line):
        found = re.fullmatch(rf"value ([A-Z][A-Z0-9_]*){GIVEN}", line)
        if not found or found[1] in self.values:
            raise BadRow(f"no value, or a second one: {line[:60]}")
        self.values[found[1]] = self.octets(found)

    def field(self, line, fields, group):
        """Adds the field of a line to those of its block. `-s` is another name of `-i`."""
        found = re.fullmatch(rf"([A-Za-z0-9 -]+?){GIVEN}", line)
        name = found and re.sub(r"^-s\b", "-i", found[1])
        if name not in FIELDS:
            raise BadRow(f"no field: {line[:60]}")
        octets = self.octets(found, {**group, **fields})
        if name in SEVERAL or name == "word":
            fields.setdefault(name, []).append(octets)
        elif name in fields:
            raise BadRow(f"a second {name}")
        else:
            fields[name] = octets

    def read(self, path):
        # what the rows have from their file and from their group
        self.file, self.source, self.group = path.name, {}, {}
        block, at = [], 0
        for number, line in enumerate([*path.read_text(encoding="utf-8").split("\n"), ""], 1):
            if line and not line.startswith("#"):
                at = at if block else number
                block.append(line)
            elif not line and block:
                try:
                    self.block(at, block)
                except BadRow as error:
                    raise BadRow(f"{path.name}:{at}: {error}") from None
                block = []

    def block(self, at, block):
        if block[0].startswith("value "):
            for line in block:
                self.value(line)
            return
        fields = {}
        for line in block:
            self.field(line, fields, self.group)
        if set(fields) == {"source"}:
            self.source, self.group = fields, {}
        elif "test" in fields:
            self.group = fields
        else:
            has_answer = bool(ANSWERS & set(fields))
            row = {**self.source, **{it: value for it, value in self.group.items() if not (has_answer and it in ANSWERS)}, **fields}
            if not {"test", "run"} <= set(row) or not ANSWERS & set(row):
                raise BadRow("a row has a test, a run and an answer")
            if row.get("writes", b"nothing") != b"nothing":
                raise BadRow("`writes` has another value than `nothing`")
            self.rows.append(Row(self.file, at, row))


def files():
    """The files, in the order in which the program reads them."""
    return [FOLDER / it for it in (FOLDER.parent / "args").read_text().split()]


def rows():
    reader = Reader()
    for path in files():
        reader.read(path)
    return reader.rows
