"""Compares the caveats of the man pages with the comments of the library's functions, by the table caveats.txt: what a page warns of must
stand at each function that it concerns, in C, Python, Rust and Go.
"""
import ast, re

from lib.manual import plain, section
from lib.trial import TOP, check

TABLE = TOP / "scripts/lib/caveats.txt"
# Each paragraph of these sections has a row of the table.
SECTIONS = ["CAVEATS", "PASSWORDS", "RECIPIENTS", "WORK"]
PAGES = [
    "jose", "jose-jwk-gen", "jose-jwk-thp", "jose-jws-sig", "jose-jws-ver", "jose-jws-fmt", "jose-jwe-enc", "jose-jwe-dec", "jose-jwe-fmt", "jose-verify-all",
]


def rows():
    found = []
    for line in TABLE.read_text().split("\n"):
        if line and not line.startswith("#"):
            name, page, words, functions = (part.strip() for part in line.split("|"))
            found.append((name, page, [word.strip() for word in words.split(";")], functions.split()))
    return found


def flat(text):
    """The text in small letters and in one line, without the marks of code."""
    return re.sub(r"\s+", " ", re.sub(r"[`\[\]*]|LAKHDZEVA_", "", text)).strip().lower()


def has(text, words):
    return all(word in text for word in words)


# ---- the pages


def paragraphs(text):
    """The paragraphs of a page or a section. An example ends one, and an entry with a tag is one."""
    text = re.sub(r"^\.EX\n.*?^\.EE$", "", text, flags=re.M | re.S)
    return [flat(plain(part)) for part in re.split(r"^\.(?:PP|RS|RE|TP|SH|SS)\b.*\n", text + "\n", flags=re.M) if part.strip()]


def compare_pages(table):
    for page in PAGES:
        text = (TOP / f"man/{page}.1").read_text()
        own = [(name, words) for name, of, words, _ in table if of == page]
        all_of_it = paragraphs(text)
        check(f"{page}: what the table has of it", [f"{name}: no paragraph has {'; '.join(words)}" for name, words in own if not any(has(it, words) for it in all_of_it)])
        warned = [part for head in SECTIONS for part in paragraphs(section(text, head))]
        check(f"{page}: each of its caveats is in the table", [part[:80] for part in warned if not any(has(part, words) for _, words in own)])


# ---- the comments of the functions: for each name the comment, with the names as the table has them


def in_c():
    text = (TOP / "bindings/c/lakhdzeva.h").read_text()
    found = {"head": re.match(r"/\*(.*?)\*/", text, re.S)[1]}
    for comment, name in re.findall(r"^/\*((?:(?!\*/).)*)\*/\nenum lakhdzeva_status lakhdzeva_(\w+)\(", text, re.M | re.S):
        found[name] = comment
    found["decrypt_with_iterations"] = found["decrypt"]
    return found, "lakhdzeva_{}"


def in_python():
    tree = ast.parse((TOP / "bindings/python/src/lakhdzeva/__init__.py").read_text())
    found = {"head": ast.get_docstring(tree)}
    for node in tree.body:
        if isinstance(node, ast.FunctionDef) and not node.name.startswith("_") and ast.get_docstring(node):
            found[node.name] = ast.get_docstring(node)
    found["decrypt_with_iterations"] = found["decrypt"]
    return found, "``{}``"


def in_rust():
    text = (TOP / "bindings/rust/src/lib.rs").read_text()
    found = {"head": "\n".join(re.findall(r"^//! ?(.*)$", text, re.M))}
    for comment, name in re.findall(r"((?:^///.*\n)+)pub fn (\w+)", text, re.M):
        found[name] = re.sub(r"^/// ?", "", comment, flags=re.M)
    return found, "[`{}`]"


def in_go():
    text = (TOP / "bindings/go/lakhdzeva.go").read_text()
    found = {"head": re.sub(r"^// ?", "", text.partition("\npackage ")[0], flags=re.M)}
    for comment, name in re.findall(r"((?:^//.*\n)+)func ([A-Z]\w*)\(", text, re.M):
        found[re.sub(r"(?<!^)(?=[A-Z])", "_", name).lower()] = re.sub(r"^// ?", "", comment, flags=re.M)
    return found, "{}"


def written(name, way):
    """The name of a function as the comments of a language write it."""
    return way.format("".join(part.capitalize() for part in name.split("_")) if way == "{}" else name)


def sentences(comment):
    """The sentences of a comment. An item of a list begins one."""
    items = re.split(r"\n\s*\n|^\s*- ", comment, flags=re.M)
    return [flat(one) for item in items for one in re.split(r"(?<=[.:])\s+(?=[A-Z`])", item)]


def reaches(name, found, way, seen=()):
    """The function, and those at which the rest of its comment stands: `The rest is as for NAME`, or `The same .. as NAME`."""
    if name in seen or name not in found:
        return set()
    others = {other for other in found if re.search(rf"\b(?:as for|same as)\s+{re.escape(written(other, way))}(?!\w)", re.sub(r"\s+", " ", found[name]))}
    return {name}.union(*(reaches(other, found, way, (*seen, name)) for other in others))


def compare_functions(table):
    for language, (found, way) in ("C", in_c()), ("Python", in_python()), ("Rust", in_rust()), ("Go", in_go()):
        problems, owed = [], {name for *_, functions in table for name in functions}
        for name, _, words, functions in table:
            for function in functions:
                # A language need not have each function: Go leaves contents in their objects, and only C takes random octets.
                if function in found and not any(has(it, words) for it in sentences(found[function])):
                    problems.append(f"{function} does not say: {'; '.join(words)} ({name})")
        check(f"{language}: each caveat stands at its functions", problems)
        # Each other function has the comment of one of the table, or leads to it. These have no caveats.
        check(f"{language}: each function has its caveats or leads to them", [name for name in found if name not in ("generate", "judge_keys", "library", "version") and not reaches(name, found, way) & owed])
    names = {name for found, _ in (in_c(), in_python(), in_rust(), in_go()) for name in found}
    check("the table names functions that are there", sorted({name for *_, functions in table for name in functions} - names - {"command"}))


def compare():
    table = rows()
    check("each row of the table is of a page", [page for _, page, _, _ in table if page not in PAGES])
    compare_pages(table)
    compare_functions(table)
