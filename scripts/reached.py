#!/usr/bin/env python3
"""Computes which definitions of crates/*/specs the promises reach, and compares docs/AUDIT.md with their pages.

usage: scripts/reached.py           compares and counts; scripts/calls does the same
       scripts/reached.py --list    prints the reached definitions by page, and marks those that cite nothing
       scripts/reached.py --kit     prints the pages of the kit that they use, all the way down, with their lines

The promises are the contract of `run` (crates/jose/src/entry.rt), with the traits of its devices, those of the functions for C
(crates/lakhdzeva/src/lib.rt), those of the tools (TOOLS), and the laws of each crate (src/laws.rt). A definition reaches what its type and its equations name, by the `use` lines of its page: other definitions, with records and data, and the
types of the code, which reach the types of their fields and what their invariants name. The views that contracts have of values of the code
(`ghost view`) are not followed, and neither are proofs.

docs/AUDIT.md names pages as `crate/Page`. Pages in specs/Code are about values and calls of the code, and no promise of `run` and no law
reaches them. These fail:
- a page with reached definitions that is in specs/Code, that is in no row of the section "The pages in reading order", or that is in two,
  and a row of any other page;
- another page that is neither in specs/Code nor in the section "What need not be read";
- a name that does not exist: a law or a test in the table of docs/AUDIT.md; a definition, written `crate/Page.name`, in it or in
  docs/STEPS.md;
- a reached definition without a section, a step or a heading of docs/SPECIFICATION.md in the comment above it or above its group;
- a definition that is not reached, on a page with reached definitions: a reader would read it for nothing.

It reads words and not meanings, so it may mistake the name of a variable for a definition, and then asks for a page too many.
"""
import collections, glob, os, re, shutil, sys

sys.dont_write_bytecode = True
from lib.sources import CRATES, ROOT, block_end, exported, fault, faults, functions, imports, page_of, parts_of_definition, read, text_at, tokens_of

RUN = "jose/src/entry.rt"
CALLS_FOR_C = "lakhdzeva/src/lib.rt"
# The files with the calls of the tools, from devices to devices.
TOOLS = ("tools/src/verifying.rt", "tools/src/changing.rt", "tools/src/looking.rt")
# The text of a refusal, which a tool shows. scripts/refusals makes the program give each of them.
TEXTS = {("octets.specs.Refusals", "refusal_text")}
# The part of a page's name that marks pages about values and calls of the code.
CODE = "/Code."
ORDER, OTHERS = "The pages in reading order", "What need not be read"

WORD = re.compile(r'"(?:\\.|[^"\\])*"|[(){}\[\];,λ∷.]|[^\s(){}\[\];,λ∷."]+')
DECLARED_BY = ("struct", "enum", "trait", "type")
KEYWORDS = {"abbrev", "opaque", "unfoldable", "pub", "record", "data", "where", "mutual", "let", "in", "unfolding"}


# ---- names


def bracket_names(words, at):
    """The place behind the names of a group of binders, such as `(x y : T)`, if one opens here, or else this place."""
    end = at + 1
    while end < len(words) and re.match(r"[^\W\d][\w-]*$", words[end][0]):
        end += 1
    return end if end > at + 1 and end < len(words) and words[end][0] == ":" else at


def named_in(text, pattern=()):
    """The names that a type or an equation uses, without those that it binds. Each comes with the field behind it, since it may be an
    alias."""
    # Each word, and whether it touches another one on its left and on its right.
    words = [(it.group(), text[:it.start()][-1:].strip() != "", text[it.end():][:1].strip() != "") for it in WORD.finditer(text)]
    bound, depth, at = [(name, 0) for name in pattern], 0, 0
    while at < len(words):
        word, _, is_touched = words[at]
        if word in "([{" or word in ")]}":
            depth += 1 if word in "([{" else -1
            bound = [it for it in bound if it[1] <= depth]
            end = bracket_names(words, at) if word in "({" else at
            bound += [(words[it][0], depth - 1) for it in range(at + 1, end)]
            at = end if end > at else at
        elif word == "λ":
            while at + 1 < len(words) and words[at + 1][0] != ".":
                at += 1
                bound.append((words[at][0], depth))
        elif word == ".":
            # A field follows.
            at += is_touched
        elif at + 1 < len(words) and words[at + 1][0] == "←" or at and words[at - 1][0] == "let":
            bound.append((word, depth))
        elif at + 1 < len(words) and words[at + 1][0] == "=" and words[at - 1][0] in "{;":
            pass
        elif at and words[at - 1][0] in ("pub", "where", ";") and at + 1 < len(words) and words[at + 1][0] == ":":
            bound.append((word, depth))
        elif not word.startswith('"') and word not in KEYWORDS and word not in (it[0] for it in bound):
            is_field = at + 2 < len(words) and words[at + 1] == (".", True, True)
            yield word, words[at + 2][0] if is_field else None
        at += 1


class Library:
    """The crates in these folders: their pages, and the types of their code."""

    def __init__(self, *folders):
        self.folders, self.pages, self.items = folders, {}, {}

    def find(self, path):
        return next(filter(os.path.exists, (os.path.join(folder, path) for folder in self.folders)), None)

    def page(self, module):
        if module not in self.pages:
            path = self.find(module.replace(".", "/") + ".antt")
            # A crate may export a page of another crate.
            crate, name, rest = re.match(r"(\w+)\.specs\.(\w+)(.*)|", module).groups()
            library = None if path or not name else self.find(f"{crate}/specs/Lib.antt")
            passed_on = library and re.search(rf"^pub use Rattle\.(\S+\.{name})$", read(library), re.M)
            self.pages[module] = page_of(path) if path else self.page(passed_on.group(1) + rest) if passed_on else None
        return self.pages[module]

    def target(self, module, name):
        """The thing that a name of a module means: a definition or a type of the code. For a case it is the definition that declares it."""
        if ".specs.declared." in module:
            crate, _, path = module.partition(".specs.declared.")
            parts = [it for it in path.split(".") if it != "TheVariants"]
            return "type", crate, "/".join(parts[:-1]), parts[-1]
        page = self.page(module)
        if page is None:
            return None
        if name in page.definitions:
            return "definition", module, name
        for other, definition in page.definitions.items():
            if name in definition.cases:
                return "definition", module, other
        if name in page.names and page.names[name][0] != module:
            return self.target(*page.names[name])
        for other in page.definitions:
            if name in filter(None, other.split("◌")):
                return "definition", module, other
        return None

    def resolve(self, names, aliases, module, word, field):
        if word in aliases:
            return self.target(aliases[word], field) if field else None
        if word in ("do", "←") and ">>=" in names:
            word = ">>="
        if word in names:
            return self.target(*names[word])
        return self.target(module, word) if module else None

    def is_case(self, found, word):
        return found and (found[0] == "type" or found[0] == "definition" and word in self.page(found[1]).definitions[found[2]].cases)

    def uses(self, node):
        """The definitions and types that a definition, or a type of the code, names."""
        if node[0] == "type":
            return self.uses_of_type(*node[1:])
        _, module, name = node
        page, found = self.page(module), set()

        def resolve(word, field=None):
            return self.resolve(page.names, page.aliases, module, word, field)

        for number, part in enumerate(parts_of_definition(page.definitions[name])):
            pattern = []
            if number:
                # This is an equation. Each name on its left side is a case, or is bound there.
                left, _, part = part.partition(" =") if " =" in part else part.partition("=")
                for word, field in named_in(left):
                    target = resolve(word, field)
                    if target == node:
                        continue
                    if self.is_case(target, field or word):
                        found.add(target)
                    elif not field:
                        pattern.append(word)
            else:
                part = re.sub(r"^((?:abbrev |opaque |unfoldable |pub )*(?:record |data )?)\S+", r"\1", part)
                pattern = page.definitions[name].cases
            found.update(filter(None, (resolve(*it) for it in named_in(part, pattern))))
        return found - {node}

    # ---- types of the code

    def exported(self, crate):
        """The module of each name that a crate exports."""
        key = "exported", crate
        if key not in self.items:
            roots = filter(None, (self.find(f"{crate}/src/{it}") for it in ("lib.rt", "main.rt")))
            self.items[key] = {name: module for root in roots for name, module in exported(read(root)).items()}
        return self.items[key]

    def file(self, path):
        """A file of code: its tokens, the names of its clauses, and those of its types."""
        if path not in self.items:
            text, types = read(self.find(path)), {}
            for module, many, one in re.findall(r"^use ((?:\w+::)+)(?:\{([^}]*)\}|(\w+));", text, re.M):
                parts = module[:-2].split("::")
                for name in filter(None, (it.strip() for it in (many or one).split(","))):
                    crate = path.split("/")[0] if parts[0] == "crate" else parts[0]
                    inner = "/".join(parts[1:]) or self.exported(crate).get(name)
                    if inner:
                        types[name] = "type", crate, inner, name
            self.items[path] = tokens_of(text), imports(text, "ghost use"), types
        return self.items[path]

    def named_in_code(self, path, tokens):
        """The types that a part of the code names, and the definitions that its clauses name."""
        _, (names, aliases), types = self.file(path)
        for at, token in enumerate(tokens):
            before = at - 2 if text_at(tokens, at - 1) == "." else None
            while before is not None and re.match(r"(?!λ)\w", text_at(tokens, before)):
                before -= 1
            # A word behind a dot is a field, unless the dot ends the variables of a function.
            if before is None or text_at(tokens, before) == "λ":
                yield self.resolve(names, {}, None, token.text, None) or types.get(token.text) or self.own_type(path, token.text)
            elif text_at(tokens, at - 2) in aliases:
                yield self.target(aliases[tokens[at - 2].text], token.text)

    def own_type(self, path, name):
        if re.match(r"[A-Z]\w*$", name) and self.place_of_type(path, name) is not None:
            crate, _, inner = path.partition("/src/")
            return "type", crate, inner[:-len(".rt")], name
        return None

    def place_of_type(self, path, name):
        tokens = self.file(path)[0]
        return next((at for at, it in enumerate(tokens) if it.text == name and text_at(tokens, at - 1) in DECLARED_BY), None)

    def uses_of_type(self, crate, inner, name):
        path = f"{crate}/src/{inner}.rt"
        start = self.place_of_type(path, name) if self.find(path) else None
        if start is None:
            return set()
        tokens, end = self.file(path)[0], start
        while text_at(tokens, end) not in ("{", ";", "(", ""):
            end += 1
        end = block_end(tokens, end) if text_at(tokens, end) in ("{", "(") else end
        return set(filter(None, self.named_in_code(path, tokens[start + 1:end]))) - {("type", crate, inner, name)}

    def contracts(self, path):
        """The definitions and types that the signatures and the clauses of a file's public functions name."""
        public = (it for it in functions(read(self.find(path))) if it.before in ("pub", '"C"'))
        return set().union(*(filter(None, self.named_in_code(path, it.tokens)) for it in public))


def reach(library, roots):
    seen, left = set(), list(roots)
    while left:
        node = left.pop()
        if node not in seen:
            seen.add(node)
            left += library.uses(node)
    return {it[1:] for it in seen if it[0] == "definition"} - TEXTS


# ---- the promises, and docs/AUDIT.md


def promises(library):
    """The definitions and types that the contract of `run` names, and those that the laws, the functions for C and the tools name."""
    others = (CALLS_FOR_C, *TOOLS, *(f"{crate}/src/laws.rt" for crate in CRATES))
    return library.contracts(RUN), set().union(*(library.contracts(it) for it in others if library.find(it)))


def lines_of(definition):
    return sum(bool(it.strip()) for it in definition.lines)


def citation():
    """The pattern of a citation of a standard or of the specification: a section, step, appendix or table with its number, or a heading in
    quotes."""
    headings = re.findall(r"^## (.*)$", read(os.path.join(ROOT, "docs/SPECIFICATION.md")), re.M)
    return re.compile(r"\b(sections?|steps?|table) \d|\bappendix [A-Z]|" + "|".join(f'"{re.escape(it)}"' for it in headings))


def section(text, heading):
    found = re.search(rf"^## {re.escape(heading)}\n(.*?)(?=^## |\Z)", text, re.M | re.S)
    return found.group(1) if found else ""


def page_text(name):
    path = os.path.join(ROOT, f"docs/{name}.md")
    return read(path) if os.path.exists(path) else ""


def compare_pages(text, reached, others):
    rows = [it for line in section(text, ORDER).split("\n") if line.startswith("|") for it in re.findall(r"`(\w+/\w+)`", line)]
    left_out = set(re.findall(r"`(\w+/\w+)`", section(text, OTHERS)))
    for page in sorted(reached | others | set(rows) | left_out):
        if page not in reached | others:
            fault(f"docs/AUDIT.md has the page {page}, which is not there")
        elif page in reached and rows.count(page) != 1:
            fault(f"docs/AUDIT.md has {rows.count(page)} rows for {page}, which has definitions that the promises reach, and not one")
        elif page in others and page in rows:
            fault(f"docs/AUDIT.md has a row for {page}, and the promises reach no definition of it")
        elif (page in others) != (page in left_out):
            fault(f"docs/AUDIT.md {'names' if page in left_out else 'does not name'} {page} among what need not be read")


def cells(text, heading, column):
    """This column of the table of a section."""
    rows = (line.split("|") for line in section(text, heading).split("\n") if line.startswith("| "))
    return " ".join(row[column] for row in rows if len(row) > column)


def compare_names(library):
    """Checks that each definition, law and test that the pages name exists."""
    laws_and_tests = set()
    for path in glob.glob(os.path.join(ROOT, "crates/*/src/**/*.rt"), recursive=True):
        if path.endswith("/laws.rt"):
            laws_and_tests.update(re.findall(r"^pub fn (\w+)", read(path), re.M))
        elif "tests" in os.path.relpath(path, ROOT):
            laws_and_tests.update(re.findall(r"#\[test\]\s*(?:#\[[^\]]*\]\s*)*fn (\w+)", read(path)))
    audit = page_text("AUDIT")
    for name in re.findall(r"`(\w+_\w+)`", cells(audit, ORDER, 4)):
        if name not in laws_and_tests:
            fault(f"docs/AUDIT.md names {name}, which is no law and no test")
    for crate, page, name in re.findall(rf"`({'|'.join(CRATES)})/(\w+)\.([^\s`]+)`", audit + page_text("STEPS")):
        target = library.target(f"{crate}.specs.{page}", name)
        if target != ("definition", f"{crate}.specs.{page}", name):
            fault(f"docs/AUDIT.md or docs/STEPS.md names {crate}/{page}.{name}, which is not there")


def compare():
    """Compares docs/AUDIT.md with the promises, and returns a line with the counts."""
    library = Library(os.path.join(ROOT, "crates"))
    by_run, by_laws = promises(library)
    run, reached = reach(library, by_run), reach(library, by_run | by_laws)
    pages = {f"{it.split('/')[-3]}/{it.split('/')[-1][:-len('.antt')]}" for it in glob.glob(os.path.join(ROOT, "crates/*/specs/*.antt"))}
    reached_pages = {module.replace(".specs.", "/") for module, _ in reached}
    for page in sorted(it for it in reached_pages if CODE in it):
        fault(f"the promises reach {page}, which is among the pages about the code")
    compare_pages(page_text("AUDIT"), reached_pages, {it for it in pages - reached_pages if not it.endswith(("/Lib", "/Code"))})
    compare_names(library)
    definitions = {(module, name): library.page(module).definitions[name] for module, name in reached}
    cites = citation()
    for (module, name), it in sorted(definitions.items()):
        if not cites.search(it.comment) and not cites.search(it.group):
            fault(f"{module.replace('.specs.', '/')}.{name} cites no section, step or heading in the comment above it or its group")
    for module in sorted({module for module, _ in reached}):
        for name in sorted(set(library.page(module).definitions) - {it for page, it in reached if page == module}):
            fault(f"{module.replace('.specs.', '/')}.{name} is on a page to read, and no promise reaches it")
    lines, of_run = sum(map(lines_of, definitions.values())), sum(lines_of(definitions[it]) for it in run)
    return f"{len(reached_pages)} pages with {len(reached)} definitions that the promises reach, of {lines} lines, {of_run} of them by `run`"


def show():
    """Prints the reached definitions by page. `-` marks those that cite nothing, and `law` those that only laws reach."""
    library, cites = Library(os.path.join(ROOT, "crates")), citation()
    by_run, by_laws = promises(library)
    run, reached = reach(library, by_run), reach(library, by_run | by_laws)
    for module in sorted({module for module, _ in reached}):
        print(module.replace(".specs.", "/"))
        for name, it in library.page(module).definitions.items():
            mark = " " if cites.search(it.comment) or cites.search(it.group) else "-"
            if (module, name) in reached:
                print(f"  {mark} {name}{'' if (module, name) in run else ' (law)'}")


def kit_folder():
    """The folder of the kit's crates."""
    program = shutil.which("rt") or sys.exit("this needs the kit: rt is not on the path")
    return os.path.join(os.path.dirname(os.path.realpath(program)), "../rattle")


def show_kit():
    kit = kit_folder()
    library = Library(os.path.join(ROOT, "crates"), kit)
    found = collections.defaultdict(dict)
    for module, name in reach(library, set().union(*promises(library))):
        page = library.page(module)
        if page.path.startswith(kit):
            found[os.path.relpath(page.path, kit)][name] = lines_of(page.definitions[name])
    for path in sorted(found):
        print(f"{path}: {sum(found[path].values())} lines: {', '.join(sorted(found[path]))}")
    print(f"{len(found)} pages, {sum(map(len, found.values()))} definitions, {sum(sum(it.values()) for it in found.values())} lines")


def main():
    if sys.argv[1:] == ["--list"]:
        return show()
    if sys.argv[1:] == ["--kit"]:
        return show_kit()
    print(compare())
    sys.exit(1 if faults else 0)


if __name__ == "__main__":
    main()
