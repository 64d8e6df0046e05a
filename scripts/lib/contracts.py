"""The text of docs/contracts.txt: each contract that the crates give, word by word, and each statement that these name.

An entry is a public call, a law, an exported function, or a record or another statement of specs/. It has its signature and each clause,
`requires` too, in one spelling: one space between words, and lines as wide as the page. So a change of a contract is a change of the page.
Definitions of values are not among them: `make definitions` computes those.
"""
import collections, os, re, textwrap

from lib.sources import CRATES, ROOT, block_end, exported, files, functions, head_end, imports, page_of, parts_of_definition, past_ghost, read, text_at, tokens_of

HEAD = """\
The contracts of the crates, word by word: of each public call, each law, and each function that the library exports, and the records and
other statements that they name. `scripts/calls --write` makes this file from crates/*/src and crates/*/specs, and `make calls` compares the
two. A line that is gone here is a promise that is gone. A new `requires`, or a new premise before an arrow, weakens one. docs/LIBRARY.md
explains the words.
"""
WIDTH = 140
# A requirement or a promise, and its name, which may be empty.
CLAUSE = re.compile(r"\b(requires|ensures) (?:(\w+) )?\{")
WORD = re.compile(r"[^\s(){}\[\],;.λ∷]+")

PAGES = {
    f"{crate}.specs.{name[:-5].replace('/', '.')}": page_of(os.path.join(ROOT, "crates", crate, "specs", name))
    for crate in CRATES for name in files(crate, "specs", ".antt")}


def clauses_of(head):
    """The clauses of a function in their order: the keyword, the name and the text of each."""
    for it in CLAUSE.finditer(head):
        at, depth = it.end(), 1
        while depth:
            depth += {"{": 1, "}": -1}.get(head[at], 0)
            at += 1
        yield it[1], it[2] or "", " ".join(head[it.end():at - 1].split())


def signature_of(head):
    text = " ".join(re.split(r"\s(?:requires|ensures)\s", head)[0].rstrip().rstrip("{;").split())
    return text.replace("( ", "(").replace(", )", ")").removeprefix("pub ")


def laid_out(lines):
    """The lines, each wrapped, with their own indentation."""
    return "\n".join("\n".join(textwrap.wrap(it, WIDTH, subsequent_indent=" " * (len(it) - len(it.lstrip()) + 4), break_on_hyphens=False,
                                             break_long_words=False)) for it in lines)


def ghosts(text):
    """The members of types, traits and implementations that only contracts see: the header of each, and its text."""
    tokens, headers, at = tokens_of(text), [], 0
    while at < len(tokens):
        word, start = tokens[at].text, at
        if word == "fn" and re.match(r"\w", text_at(tokens, at + 1)):
            at = block_end(tokens, head_end(tokens, at))
        elif word in ("impl", "trait", "struct", "enum"):
            while tokens[at].text not in ("{", ";", "("):
                at += 1
            header = " ".join(text[tokens[start].at:tokens[at].at].split())
            at = at if tokens[at].text == "{" else block_end(tokens, at)
            headers += [header] if text_at(tokens, at) == "{" else []
            at += text_at(tokens, at) == "{"
        elif word == "ghost":
            at = past_ghost(tokens, at)
            if text_at(tokens, start + 1) != "use":
                yield headers[-1] if headers else "", " ".join(text[tokens[start].at:tokens[at - 1].at + 1].split()).rstrip(";,")
        else:
            headers += [""] if word == "{" else []
            headers = headers[:-1] if word == "}" else headers
            at += 1


def entries_of(crate):
    """The entries of the code of a crate, each as lines, and the definitions that they name."""
    names, entries, named = exported(read(os.path.join(ROOT, "crates", crate, "src/lib.rt"))), [], set()
    for path in files(crate, "src", ".rt"):
        text = read(os.path.join(ROOT, "crates", crate, "src", path))
        origins, found = imports(text, "ghost use")[0], []
        for it in functions(text):
            # The functions of a root that are not public are those of the program, and those that the library exports.
            is_call = it.before == "pub" and ((it.owner or it.name) in names or path == "laws.rt") or it.is_of_trait or path == "lib.rt"
            if is_call:
                clauses = [f"  {keyword} {name}{' ' if name else ''}{{ {clause} }}" for keyword, name, clause in clauses_of(it.head)]
                found.append([(f"{it.owner}: " if it.owner else "") + signature_of(it.head), *clauses])
        members = collections.defaultdict(list)
        for header, member in ghosts(text):
            members[header].append(f"  {member}")
        found += [[header, *lines] for header, lines in members.items() if header]
        entries += found
        named |= {origins[word] for word in WORD.findall("\n".join(map("\n".join, found))) if word in origins}
    return entries, named


def resolved(module, name):
    """The page and the name of a definition, or None for what is not defined in specs/."""
    while module in PAGES and name not in PAGES[module].definitions:
        page = PAGES[module]
        operator = next((it for it in page.definitions if name in it.split("◌")), None)
        if operator or name not in page.names or page.names[name][0] == module:
            return operator and (module, operator)
        module, name = page.names[name]
    return (module, name) if module in PAGES else None


def reached(named):
    """Every definition that these name, all the way down."""
    found, left = set(), [resolved(*it) for it in named]
    while left:
        node = left.pop()
        if not node or node in found:
            continue
        found.add(node)
        module, name = node
        page = PAGES[module]
        for word in WORD.findall("\n".join(page.definitions[name].lines)):
            if word in page.names or word in page.definitions:
                left.append(resolved(module, word))
    return found


def statement(module, name):
    """The lines of a record or of another statement, or None for a definition of a value."""
    definition = PAGES[module].definitions[name]
    first, *equations = [" ".join(it.split()) for it in parts_of_definition(definition)]
    if re.search(r"\brecord ", first[:16]):
        head, *fields = re.split(r" where pub | pub (?=\w+ : )", first)
        return [head, *(f"  {it}" for it in fields)]
    return [first, *(f"  {it}" for it in equations)] if re.search(r"(→|:) Type \d$", first) else None


def text_of():
    """The text of docs/contracts.txt."""
    parts, named = [HEAD], set()
    for crate in CRATES:
        entries, of_crate = entries_of(crate)
        parts += [f"## {crate}\n", *(laid_out(it) + "\n" for it in entries)]
        named |= of_crate
    definitions = reached(named)
    for module in PAGES:
        lines = [it for name in PAGES[module].definitions if (module, name) in definitions and (it := statement(module, name))]
        parts += [f"## {module}\n", *(laid_out(it) + "\n" for it in lines)] if lines else []
    return "\n".join(parts)
