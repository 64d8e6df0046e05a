"""Reads the sources of the crates: the code as tokens, by file and function, and the pages of definitions.

`parts` leaves out comments, clauses, code that serves clauses alone, and tests, which are the modules under `#[cfg(test)]`. `functions` has
the functions of a file with their contracts. `page_of` has the definitions of a page, and `imports` what the names of a file mean.
"""
import collections, functools, os, re

from lib.trial import TOP

ROOT = str(TOP)
# The crates that are libraries. The others have a `main` and promise nothing.
CRATES = [it for it in re.findall(r"^([a-z]+)(?: staticlib)?:", (TOP / "crates.txt").read_text(), re.M) if (TOP / "crates" / it / "src/lib.rt").exists()]
Token = collections.namedtuple("Token", "text line at")
# A function with its signature, or everything in a file outside of functions. In the second case `function` is "".
Part = collections.namedtuple("Part", "path function tokens")
# A function: the name of its type or public trait, or "", as in an `impl` of a trait; whether that is a public trait; the word before `fn`; its
# name; the tokens of its signature with the clauses; its text from the beginning of the line to its body, with a body `{}`; and where its body
# begins and ends.
Function = collections.namedtuple("Function", "owner is_of_trait before name tokens head body end")
Definition = collections.namedtuple("Definition", "lines comment group cases")
# A page: the names that it imports, the aliases of modules, and its definitions.
Page = collections.namedtuple("Page", "path names aliases definitions")

TOKEN = re.compile(r"""
    (?P<gap>\s+|//[^\n]*|/\*.*?\*/)
  | (?P<token>b?r(?P<hashes>\#*)".*?"(?P=hashes)                          # a raw string
  | [bc]?"(?:\\.|[^\\"])*"                                                # a string
  | b?'(?:\\(?:x[0-9a-fA-F]{2}|u\{[^}]*\}|.)|[^\\'\n])'                   # a character
  | '?\w+                                                                 # a word, a number or a lifetime
  | ::|=>|->|==|!=|<=|>=|&&|\|\||<<|>>|\.\.=?|[-+*/%^&|]=|.)
""", re.S | re.X)
OPENING, CLOSING = "([{", ")]}"
# The attributes that are left out, since they generate no code.
HINTS = {"cfg", "cycle", "inline", "tactic"}


# The faults that were found.
faults = []


def fault(what):
    faults.append(what)
    print(f"FAILED: {what}")


def read(path):
    with open(path, encoding="utf-8") as file:
        return file.read()


def files(crate, folder, end):
    """The paths below a folder of a crate that have this end. The modules of tests are left out."""
    top, tests = os.path.join(ROOT, "crates", crate, folder), tests_of(crate) if folder == "src" else ()
    for at, _, names in sorted(os.walk(top)):
        for path in (os.path.join(at, it) for it in sorted(names) if it.endswith(end)):
            if not is_below(path, tests):
                yield os.path.relpath(path, top)


def tokens_of(text):
    """All tokens of a text, without white space and comments."""
    found, line, at = [], 1, 0
    for it in TOKEN.finditer(text):
        line, at = line + text.count("\n", at, it.start()), it.start()
        if it["token"]:
            found.append(Token(it["token"], line, at))
    return found


def block_end(tokens, at):
    """The place behind the block that opens here."""
    depth = 0
    while at < len(tokens):
        depth += (tokens[at].text in OPENING) - (tokens[at].text in CLOSING)
        at += 1
        if not depth:
            break
    return at


def text_at(tokens, at):
    return tokens[at].text if 0 <= at < len(tokens) else ""


def past_ghost(tokens, at):
    """The place behind code that serves clauses alone, if some begins here, or else this place."""
    word, start = tokens[at].text, at
    if word in ("requires", "ensures"):
        at += 1 + (text_at(tokens, at + 1) != "{")
        return block_end(tokens, at) if text_at(tokens, at) == "{" else start
    if word == "ghost" and text_at(tokens, at + 1) == "use":
        while text_at(tokens, at) not in (";", ""):
            at += 1
        return at + 1
    if word == "ghost" and text_at(tokens, at + 2) in (":", "="):
        at += 2
        while text_at(tokens, at) in (":", "=") and text_at(tokens, at + 1) == "{":
            at = block_end(tokens, at + 1)
        return at + (text_at(tokens, at) in (";", ","))
    return at


def code_of(tokens):
    """The tokens without hints and without code that serves clauses alone, and the names of the modules that are tests."""
    code, tests, at = [], [], 0
    while at < len(tokens):
        past = past_ghost(tokens, at)
        if tokens[at].text == "#":
            words = [it.text for it in tokens[at:at + 10]]
            if " ".join(words[:8]) == "# [ cfg ( test ) ] mod" and words[9:] == [";"]:
                tests.append(words[8])
            opens = at + 1 + (words[1:2] == ["!"])
            is_hint = text_at(tokens, opens + 1) in HINTS or " ".join(words).startswith("# [ unsafe ( no_mangle ) ]")
            past = block_end(tokens, opens) if is_hint else at
        if past > at:
            at = past
        else:
            code.append(tokens[at])
            at += 1
    return code, tests


def owner_of(header):
    """The type that an `impl` is for, or the name of a trait."""
    text = header[header.rfind(" for ") + 5:] if " for " in header else re.sub(r"^(impl|trait)( <.*?>(?= \w))?", "", header)
    return re.findall(r"\w+", re.split(r" (?:<|:(?!:)|where\b)", text)[0])[-1]


def parts_of(path, code):
    """The functions of a file, and last everything outside of them."""
    outside, owners, at = [], [], 0
    while at < len(code):
        word, start = code[at].text, at
        if word == "fn" and re.match(r"\w", text_at(code, at + 1)):
            while text_at(code, at) not in ("{", ";", ""):
                at = block_end(code, at)
            at = block_end(code, at)
            owner = next(filter(None, reversed(owners)), None)
            yield Part(path, "::".join(filter(None, [owner, code[start + 1].text])), code[start:at])
            continue
        if word in ("impl", "trait"):
            while code[at].text != "{":
                at += 1
            owners.append(owner_of(" ".join(it.text for it in code[start:at])))
        elif word == "{":
            owners.append(None)
        elif word == "}" and owners:
            owners.pop()
        at += 1
        outside += code[start:at]
    yield Part(path, "", outside)


def is_below(path, modules):
    return any(path == f"{it}.rt" or path.startswith(f"{it}/") for it in modules)


@functools.cache
def code_by_file(crate):
    """The code of each file of a crate that is no test, and the paths of the modules that are tests, without their endings."""
    folder, found, tests = os.path.join(ROOT, "crates", crate, "src"), {}, []
    paths = [os.path.join(at, name) for at, _, names in os.walk(folder) for name in names if name.endswith(".rt")]
    # The file of a module comes before the files of the modules that it names.
    for path in sorted(paths, key=lambda it: (it.count("/"), not it.endswith(("/lib.rt", "/main.rt", "/mod.rt")), it)):
        if not is_below(path, tests):
            found[path], of_tests = code_of(tokens_of(read(path)))
            room = path[:-len(".rt")] if not path.endswith(("/lib.rt", "/main.rt", "/mod.rt")) else os.path.dirname(path)
            tests += [os.path.join(room, it) for it in of_tests]
    return found, tests


def tests_of(crate):
    return code_by_file(crate)[1]


def parts(crate):
    """The code of a crate, part by part."""
    for path, code in code_by_file(crate)[0].items():
        yield from parts_of(os.path.relpath(path, ROOT), code)


# ---- functions and their contracts


def head_end(tokens, at):
    """The place of the body of the function that begins here, or of its `;`. The blocks of clauses are not the body."""
    while text_at(tokens, at) not in ("{", ";", ""):
        is_clause = text_at(tokens, at) in ("requires", "ensures")
        at = block_end(tokens, at + 1 + (text_at(tokens, at + 1) != "{") if is_clause else at)
    return at


def functions(text):
    """The functions of a file, in their order. Those inside of others are not among them."""
    tokens, owners, at = tokens_of(text), [], 0
    while at < len(tokens):
        word, start = tokens[at].text, at
        if word == "fn" and re.match(r"\w", text_at(tokens, at + 1)):
            body = head_end(tokens, at)
            at = block_end(tokens, body)
            head = text[text.rfind("\n", 0, tokens[start].at) + 1:tokens[body].at + 1 + text.startswith("{}", tokens[body].at)]
            owner = next(filter(None, reversed(owners)), ("", False))
            yield Function(*owner, text_at(tokens, start - 1), tokens[start + 1].text, tokens[start:body], head, tokens[body].at, tokens[at - 1].at)
            continue
        if word in ("impl", "trait"):
            while tokens[at].text != "{":
                at += 1
            header, is_public = " ".join(it.text for it in tokens[start:at]), text_at(tokens, start - 1) == "pub"
            is_named = is_public if word == "trait" else " for " not in header
            owners.append((owner_of(header) if is_named else "", word == "trait" and is_public))
        elif word == "{":
            owners.append(None)
        elif word == "}" and owners:
            owners.pop()
        at += 1


# ---- pages of definitions


def imports(text, line):
    """The names that `use` lines import, each with its module and its name there, and the aliases of modules."""
    names, aliases = {}, {}
    for module, items in re.findall(line + r" Rattle\.([^\s{}]+)\.\{([^}]*)\}", text):
        for item in filter(None, (it.strip() for it in items.split(","))):
            name, _, other = item.partition(" as ")
            for part in filter(None, (other or name).split("◌")):
                names[part] = module, name
    for module, alias in re.findall(line + r" Rattle\.([^\s{}]+) as (\w+)", text):
        aliases[alias] = module
    return names, aliases


def without_blocks(text):
    """The lines of a text. Definitions in an indented block, such as mutual ones, lose their indentation."""
    lines, inside = [], False
    for line in text.split("\n"):
        if re.match(r"(abbrev |pub )*mutual$|module _ .* where$", line):
            inside = True
            continue
        inside = inside and (not line.strip() or line.startswith("  "))
        lines.append(line[2:] if inside else line)
    return lines


def page_of(path):
    text = read(path)
    definitions, comment, group, current, is_group = {}, [], "", None, False
    for line in without_blocks(text):
        if line.startswith("-- ----"):
            group, comment, is_group = line, [], True
        elif line.startswith("--"):
            group, comment = (group + line, []) if is_group else (group, comment + [line])
        elif not line.strip():
            comment, is_group = [], False
        elif line.startswith((" ", "use ", "pub use ", "infix")):
            comment, is_group = comment if line.startswith("infix") else [], False
            # The two dashes of a comment stand alone. In a string, such as "-----BEGIN", they do not.
            if current and line.startswith(" ") and (code := re.sub(r"(?<!\S)--(?!\S).*", "", line)).strip():
                current.lines.append(code)
        else:
            is_group = False
            head = re.match(r"((?:abbrev |opaque |unfoldable |pub )*)((?:record |data )?)(◌?[^\s(){}:]*◌?)(?: \{ℓ\})?\s*(.?)", line)
            if head.group(2) or head.group(4) == ":":
                current = Definition([], " ".join(comment), group, [])
                definitions[head.group(3)] = current
                comment = []
            if current:
                current.lines.append(line)
    for definition in definitions.values():
        if re.match(r"(pub )?data ", definition.lines[0]):
            definition.cases.extend(it for line in definition.lines[1:] for it in re.findall(r"^\s+([^\s:]+) :", line))
    return Page(path, *imports(text, r"(?m:^)(?:unfoldable )?(?:pub )?use"), definitions)


def parts_of_definition(definition):
    """The type of a definition, and then its equations. A record and a data type have none."""
    found = []
    for line in definition.lines:
        if found and line.startswith(" "):
            found[-1] += "\n" + line
        else:
            found.append(line)
    return found


def exported(text):
    """The module of each name that the root of a crate exports."""
    found = {}
    for module, many, one in re.findall(r"^pub use ((?:\w+::)+)(?:\{([^}]*)\}|(\w+));", text, re.M):
        found.update({it.strip(): module[:-2].replace("::", "/") for it in (many or one).split(",")})
    return found
