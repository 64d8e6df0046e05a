"""Counts how the code is tested, from the sources alone, and compares the numbers with those of docs/TESTING.md (`make pages`).

usage: scripts/lib/counted.py [--write]     prints the numbers, or writes them into the page

A row of the page is `| NAME | NUMBER | ..`, and its name is one of `counts`.
"""
import json, os, re, sys

sys.dont_write_bytecode = True
sys.path.insert(0, os.path.join(os.path.dirname(os.path.abspath(__file__)), ".."))
from lib import rowfiles
from lib.sources import code_by_file
from lib.trial import TOP, check

PAGE = TOP / "docs/TESTING.md"
ROW = re.compile(r"^\| ([^|]+) \| ([\d,]+) \|", re.M)
CRATES = sorted(path.name for path in (TOP / "crates").iterdir() if path.is_dir() and (path / "src").is_dir())


def sources(pattern):
    """The texts of the files that have this pattern. What was built is left out."""
    return [path.read_text() for path in sorted(TOP.glob(pattern)) if path.is_file() and "out" not in path.relative_to(TOP).parts]


def found(pattern, texts):
    return sum(len(re.findall(pattern, text, re.M)) for text in texts)


def lines(texts):
    return sum(text.count("\n") for text in texts)


def edits():
    """The wrong bodies in the folders `edits`: an empty line parts two of them."""
    return sum(len(re.split(r"\n\n+", text.strip("\n"))) for text in sources("crates/*/edits/**/*.edits"))


def refusals():
    """The refusals that scripts/refusals makes the program give: the entries of the pages of the commands."""
    from lib.manual import refusals
    return sum(len(refusals(path.read_text())) for path in (TOP / "man").glob("jose-*.1"))


def counts():
    codes = [(TOP / path).read_text() for crate in CRATES for path in code_by_file(crate)[0]]
    # The examples of docs/FROM-LATCHSET.md need two programs, so they are tried elsewhere.
    pages = [*sources("README.md"), *sources("man/*.1"), *sources("docs/[!F]*.md")]
    return {
        "lines of code": lines(codes),
        "lines of definitions": lines(sources("crates/*/specs/**/*.antt")),
        "lines of written proofs": lines(sources("crates/*/proofs/**/*.antt")),
        "clauses of contracts": found(r"^  (?:requires|ensures)\b", sources("docs/contracts.txt")),
        "wrong bodies that the gate tries": len(list(TOP.glob("crates/*/must-fail/*.edit"))),
        "wrong bodies that `make edits` tries": edits(),
        "test functions in the crates": found(r"^\s*#\[test\]", sources("crates/*/src/**/*.rt")),
        "rows": len(rowfiles.rows()),
        "mistakes in definitions": found(r"^- ", sources("scripts/lib/mistakes.txt")),
        "entries of docs/vectors.txt": found(r"^\| .*`.*\|$", sources("docs/vectors.txt")),
        "tests of the bindings": found(r"^\s*def test_|^func (?:Test|Example)|^\s*#\[test\]", [*sources("bindings/python/tests/*.py"), *sources("bindings/go/*.go"), *sources("bindings/rust/**/*.rs")]),
        "tokens with claims": len(json.loads((TOP / "examples/claims/cases.json").read_text())),
        "hostile inputs in a run": int(re.search(r"^COUNT = (\d+)$", (TOP / "scripts/hostile").read_text(), re.M)[1]),
        "refusals that the pages of the commands list": refusals(),
        "examples in the pages": found(r"^ *\$ ", pages),
        "recipes": len(list(TOP.glob("examples/*.sh"))),
        "other programs": len(list((TOP / "scripts/lib/peers").glob("*_peer.*"))) + 1,
    }


def compare():
    """Compares the numbers of the page."""
    here, stated = counts(), {name: int(number.replace(",", "")) for name, number in ROW.findall(PAGE.read_text())}
    wrong = [f"{name} are {here.get(name)}, and not {number}" for name, number in stated.items() if here.get(name) != number]
    check("docs/TESTING.md: its numbers are those of the sources (scripts/lib/counted.py --write)", wrong + [f"it does not say: {name}" for name in here if name not in stated])


def main():
    here = counts()
    if "--write" in sys.argv[1:]:
        PAGE.write_text(ROW.sub(lambda row: f"| {row[1]} | {here[row[1]]:,} |" if row[1] in here else row[0], PAGE.read_text()))
    for name, number in here.items():
        print(f"{number:,} {name}")


if __name__ == "__main__":
    main()
