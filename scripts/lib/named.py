"""Checks that what CONTRIBUTING.md and docs/ARCHITECTURE.md name in code type is there: files, targets of the Makefile and names of the
sources. It finds a name that a change left behind, and not one that now means something else.
"""
import re

from lib.trial import TOP, check

PAGES = ["CONTRIBUTING.md", "docs/ARCHITECTURE.md"]
SUFFIXES = (".rt", ".antt", ".md", ".txt", ".py", ".toml", ".edit", ".sh")
# Words in a path that can be any name.
ANY = ["NAME", "FILE", "NOUN", "FUNCTION", "TARGET"]
# A name of the sources: with a large letter, an underscore or a path inside, so that it is no word of English.
NAME = re.compile(r"(?=\w*[A-Z_]|\w+::)\w+(?:::\w+)*")


def files():
    """The paths of the repository's files and folders."""
    found = {path.relative_to(TOP).as_posix() for path in TOP.rglob("*")}
    return {path for path in found if not path.startswith(".git/") and "/out/" not in f"/{path}"}


def stands(path, paths):
    """Whether a file, a folder or a page of definitions has this path, or one that ends with it."""
    wanted = re.sub("|".join(ANY), "[^/]+", re.escape(path.rstrip("/")))
    return any(map(re.compile(rf"(?:.*/)?{wanted}(?:\.antt)?").fullmatch, paths))


def spans(text):
    """What the page has in code type, outside its blocks, and the files that links and sentences name."""
    text = re.sub(r"^```.*?^```", "", text, flags=re.M | re.S)
    return re.findall(r"`([^`\n]+)`", text), re.findall(r"\]\(([^)#:]+)\)", text) + re.findall(r"(?<![\w`/])(?:scripts|docs|bindings|static|examples|tools)/[\w./-]*\w", text)


def compare():
    paths = files()
    words = set()
    for path in (TOP / "crates").rglob("*"):
        if path.suffix in (".rt", ".antt") and "out" not in path.parts:
            words |= set(re.findall(r"\w+", path.read_text()))
    for path in (TOP / "scripts").rglob("*"):
        if path.is_file() and path.suffix in ("", ".py"):
            words |= set(re.findall(r"\w+", path.read_text()))
    words |= set(re.findall(r"^\w+", (TOP / "crates.txt").read_text(), re.M))
    targets = set(re.findall(r"^([\w-]+):", (TOP / "Makefile").read_text(), re.M))
    for page in PAGES:
        code, named = spans((TOP / page).read_text())
        missing = [f"there is no file {one}" for one in named if not stands(one, paths) and not (TOP / page).parent.joinpath(one).exists()]
        for one in code:
            if made := re.match(r"make ([\w-]+)", one):
                missing += [] if made[1] in targets else [f"there is no target {made[1]}"]
            elif " " in one or "*" in one or re.match(r"[A-Z]+/|out\b|.*/out\b", one):
                continue
            elif one.endswith(SUFFIXES) or "/" in one:
                missing += [] if stands(one, paths) else [f"there is no file {one}"]
            elif NAME.fullmatch(one):
                missing += [f"no source has the name {part}" for part in one.split("::") if part not in words]
        check(f"{page}: what it names is there", missing)
