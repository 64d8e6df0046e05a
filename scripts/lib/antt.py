"""Evaluates definitions of crates/*/specs, and those of the kit that they use, from their text.

It reads an equation with its patterns (numbers, `zero` and `suc`, lists, pairs, cases with their values). On the right side it reads
functions (`λ`), `let`, `if`, records and their changes, `do` with `←`, fields, qualified names, and the operators of OPERATORS. The `use`
lines of a page say what a name means. It knows no types: a case is its name, so two types may have equal ones. Arguments are computed
first, except those of `if`, `&&`, `||` and the functions of CHOICES.

It does not read types, propositions, implicit arguments (in braces), `unfolding` and proofs. A definition that it cannot read is an error
when it is first used. The functions of std and core that BUILT lists, on numbers, bits, lists and texts, are not read: Python has its own
for them.

Values are Python's: a number is an int, a list and a pair are tuples, and a text is a tuple of octets. `Case`, `Record` and `Function` are
the rest.

Some definitions cannot be computed in this way, because they are too slow (a hash of a long text) or search all octet strings. `replace`
puts a function of Python in the place of such a definition. A script first checks that both return the same for some arguments. From then
on the function computes the result.

`Definitions.used` has the definitions that were computed since a script emptied it, each as its module and its name.
"""
import ast, collections, contextlib, functools, operator, re

Case = collections.namedtuple("Case", "name values", defaults=((),))
Token = collections.namedtuple("Token", "kind text column is_first")

TOKEN = re.compile(r"""
    (?P<gap>[ \t]+|--[^\n]*) | (?P<line>\n) | (?P<string>"(?:\\.|[^"\\])*") | (?P<number>0x[0-9A-Fa-f_]+|\d[\d_]*)
  | (?P<sign>>>=|==|&&|\|\||\+\+|[(){}\[\];,:=λ→×≡≢∷+\-*/%^<≤≥←↔¬⊎]) | (?P<dot>\.)
  | (?P<name>[^\s(){}\[\];,:=λ→×≡≢∷+*/%^<≤≥←↔¬⊎."]+)
""", re.X)
# The precedence of each operator, and the side on which it associates.
OPERATORS = {
    ">>=": (10, "left"), "||": (20, "right"), "&&": (30, "right"), "==": (40, ""), "<": (40, ""), "≤": (40, ""), "∷": (50, "right"),
    "++": (50, "right"), "+": (60, "left"), "-": (60, "left"), "*": (70, "left"), "/": (70, "left"), "%": (70, "left"), "^": (80, "right"),
}
# Numbers are natural. A difference is never below 0, a division by 0 is 0, and a remainder by 0 is the number itself.
NUMBERS = {
    "==": operator.eq, "<": operator.lt, "≤": operator.le, "+": operator.add, "-": lambda a, b: max(a - b, 0), "*": operator.mul,
    "/": lambda a, b: a // b if b else 0, "%": lambda a, b: a % b if b else a, "^": operator.pow, "++": operator.add,
}
NONE = Case("None")
CONSTANTS = {"true": True, "false": False, "zero": 0, "tt": Case("tt"), "unit": Case("tt"), "None": NONE}
CASES = {"Some", "Ok", "Err"}
# Functions whose first argument chooses the one of the others that is computed, and the values of the first.
CHOICES = {"cond": (True, False), "match_ordering": (Case("Less"), Case("Equal"), Case("Greater"))}


class Record:
    def __init__(self, fields):
        self.fields = fields

    def __eq__(self, other):
        return isinstance(other, Record) and self.fields == other.fields

    def __hash__(self):
        return hash(tuple(sorted(self.fields.items(), key=operator.itemgetter(0))))

    def __repr__(self):
        return f"{{{'; '.join(f'{name} = {value}' for name, value in self.fields.items())}}}"


class Function:
    """A function with its number of arguments, and those that are already applied."""

    def __init__(self, arity, body, given=()):
        self.arity, self.body, self.given = arity, body, given

    def __eq__(self, other):
        return isinstance(other, Function) and self.body is other.body and self.given == other.given

    def __hash__(self):
        return hash((id(self.body), self.given))


def apply(value, *arguments):
    while arguments:
        if isinstance(value, Case):
            return Case(value.name, value.values + arguments)
        needed = value.arity - len(value.given)
        if len(arguments) < needed:
            return Function(value.arity, value.body, value.given + arguments)
        value, arguments = value.body(*value.given, *arguments[:needed]), arguments[needed:]
    return value


def field(value, name):
    return value[int(name)] if name.isdigit() else value.fields[name]


# ---- functions that Python has and that are not read


def is_utf8(octets):
    try:
        return bytes(octets).decode("utf-8") is not None
    except UnicodeDecodeError:
        return False


def each(function, values):
    return tuple(apply(function, it) for it in values)


def ordering(a, b):
    return Case("Less" if a < b else "Equal" if a == b else "Greater")


def lexicographic(compare, xs, ys):
    found = (apply(compare, x, y) for x, y in zip(xs, ys))
    return next((it for it in found if it.name != "Equal"), ordering(len(xs), len(ys)))


FUNCTIONS = {
    "not": (1, operator.not_), "suc": (1, lambda n: n + 1),
    "length": (1, len), "map": (2, each), "take": (2, lambda n, xs: xs[:n]), "drop": (2, lambda n, xs: xs[n:]),
    "replicate": (2, lambda n, x: (x,) * n), "slice_index": (2, lambda xs, i: xs[i] if i < len(xs) else 0),
    "get_or": (3, lambda xs, i, other: xs[i] if i < len(xs) else other), "range_with_len": (2, lambda a, n: tuple(range(a, a + n))),
    "concat": (1, lambda xs: sum(xs, ())), "flat_map": (2, lambda f, xs: sum(each(f, xs), ())),
    "fold": (3, lambda f, first, xs: functools.reduce(lambda a, x: apply(f, a, x), xs, first)),
    "filter": (2, lambda f, xs: tuple(x for x in xs if apply(f, x))), "list_any": (2, lambda f, xs: any(apply(f, x) for x in xs)),
    "list_all": (2, lambda f, xs: all(apply(f, x) for x in xs)),
    "pointwise": (3, lambda f, xs, ys: len(xs) == len(ys) and all(apply(f, x, y) for x, y in zip(xs, ys))),
    "find": (2, lambda f, xs: next((Case("Some", (x,)) for x in xs if apply(f, x)), NONE)),
    "min": (2, min), "max": (2, max), "nat_cmp": (2, ordering), "slice_cmp": (3, lexicographic),
    "bit_xor": (2, operator.xor), "bit_and": (2, operator.and_), "bit_or": (2, operator.or_), "bits": (1, lambda width: width),
    "nat_eq": (2, operator.eq), "nat_le": (2, operator.le), "nat_lt": (2, operator.lt), "bytes_eq": (2, operator.eq), "is_in_range": (3, lambda a, b, n: a <= n <= b),
    "pos": (1, lambda n: n), "negsuc": (1, lambda n: -n - 1), "neg_ℤ": (1, operator.neg),
    "codes": (1, lambda text: tuple(text.encode())), "decimal": (1, lambda n: tuple(str(n).encode())),
    "is_utf8": (1, is_utf8), "encode_utf8": (1, lambda code: tuple(chr(code).encode())),
}
BUILT = {name: Function(*it) for name, it in FUNCTIONS.items()} | {"w32": 32, "w64": 64, "w128": 128}
OF_PYTHON = ("std.", "core.", "std_alloc.")


# ---- from texts to functions


def tokens_of(text):
    """All tokens of an equation. A dot between two words that it touches is that of a field."""
    found, start, is_first, touches = [], 0, True, False
    for it in TOKEN.finditer(text):
        kind, word = it.lastgroup, it.group()
        if kind == "line":
            start, is_first = it.end(), True
        elif kind != "gap":
            if kind == "dot" and touches and re.match(r"\w", text[it.end():]):
                kind = "field"
            found.append(Token(kind, word, it.start() - start, is_first))
            is_first = False
        touches = kind not in ("line", "gap")
    return found


class Reader:
    """Reads the tokens of one equation. An expression becomes a function of the values of the names in `scope`, which are bound around
    it."""

    def __init__(self, page, tokens):
        self.page, self.tokens, self.at = page, tokens, 0

    def sees(self, *words):
        return self.at < len(self.tokens) and self.tokens[self.at].kind != "string" and self.tokens[self.at].text in words

    def sees_kind(self, *kinds):
        return self.at < len(self.tokens) and self.tokens[self.at].kind in kinds

    def next(self):
        self.at += 1
        return self.tokens[self.at - 1]

    def takes(self, word):
        if not self.sees(word):
            raise SyntaxError(f"{word} is not there: {' '.join(it.text for it in self.tokens[self.at - 5:self.at + 5])}")
        self.at += 1

    def skips(self, word):
        is_there = self.sees(word)
        self.at += is_there
        return is_there

    def whole(self, scope):
        found = self.expression(scope)
        if self.at != len(self.tokens):
            raise SyntaxError(f"not read: {' '.join(it.text for it in self.tokens[self.at:][:8])}")
        return found

    # -- expressions

    def expression(self, scope, least=0):
        if self.skips("λ"):
            return self.function(scope)
        if self.skips("let"):
            return self.let(scope)
        if self.skips("if"):
            test = self.expression(scope)
            self.takes("then")
            one = self.expression(scope)
            self.takes("else")
            other = self.expression(scope)
            return lambda values: one(values) if test(values) else other(values)
        left = self.application(scope)
        while self.sees(*OPERATORS) and OPERATORS[self.tokens[self.at].text][0] >= least:
            word = self.next().text
            binds, side = OPERATORS[word]
            left = operation(word, left, self.expression(scope, binds + (side != "right")))
        return left

    def function(self, scope):
        names = ()
        while not self.sees_kind("dot"):
            names += (self.next().text,)
        self.at += 1
        body = self.expression(scope + names)
        return lambda values: Function(len(names), lambda *arguments: body(values + arguments))

    def let(self, scope):
        name = self.next().text
        while not self.sees("="):
            self.at += 1
        self.takes("=")
        value = self.expression(scope)
        self.takes("in")
        body = self.expression(scope + (name,))
        return lambda values: body(values + (value(values),))

    def application(self, scope):
        word = self.tokens[self.at].text
        choice = CHOICES.get(word, ()) if word not in scope else ()
        function, arguments = self.atom(scope), []
        while self.sees_kind("string", "number", "name") and not self.sees("then", "else", "in") or self.sees("(", "[", "{"):
            if self.sees("{"):
                self.past_braces()
            else:
                arguments.append(self.atom(scope))
        if self.sees("λ"):
            arguments.append(self.expression(scope))
        if choice and len(arguments) == 1 + len(choice):
            test, *ways = arguments
            return lambda values: ways[choice.index(test(values))](values)
        return (lambda values: apply(function(values), *[it(values) for it in arguments])) if arguments else function

    def past_braces(self):
        depth = 0
        while True:
            word = self.next().text
            depth += (word == "{") - (word == "}")
            if not depth:
                return

    def atom(self, scope):
        token = self.next()
        if token.text == "do" and token.kind == "name":
            return self.steps(self.statements(), scope)
        if token.kind in ("number", "string"):
            constant = int(token.text.replace("_", ""), 0) if token.kind == "number" else ast.literal_eval(token.text)
            found = lambda values: constant
        elif token.text == "(":
            found = self.in_parentheses(scope)
        elif token.text == "[":
            self.takes("]")
            found = lambda values: ()
        elif token.text == "record":
            found = self.record(scope)
        elif token.kind == "name":
            found = self.name(token.text, scope)
        else:
            raise SyntaxError(f"this is no expression: {token.text}")
        while self.sees_kind("field"):
            self.at += 1
            found = (lambda of, name: lambda values: field(of(values), name))(found, self.next().text)
        return found

    def in_parentheses(self, scope):
        parts = [self.expression(scope)]
        while self.skips(","):
            parts.append(self.expression(scope))
        self.takes(")")
        return parts[0] if len(parts) == 1 else lambda values: tuple(it(values) for it in parts)

    def name(self, word, scope):
        if word in scope:
            place = len(scope) - 1 - scope[::-1].index(word)
            return lambda values: values[place]
        inner = None
        if self.sees_kind("field") and self.page.is_qualifier(word):
            self.at += 1
            inner = self.next().text
        # A name is looked up when it is first used, since definitions may use one another.
        found = functools.cache(lambda: self.page.named(word, inner))
        used = self.page.definitions.used

        def value(values):
            it, constants = found()
            used.update(constants)
            return it
        return value

    def record(self, scope):
        base = (lambda values: Record({})) if self.sees("{") else self.atom(scope)
        self.takes("{")
        fields = {}
        while not self.skips("}"):
            name = self.next().text
            self.takes("=")
            fields[name] = self.expression(scope)
            self.skips(";")
        return lambda values: Record(base(values).fields | {name: it(values) for name, it in fields.items()})

    def statements(self):
        """The tokens of each line of a `do`. All lines begin in the same column, and long ones continue further to the right."""
        found, depth, column = [], 0, self.tokens[self.at].column
        while self.at < len(self.tokens):
            token = self.tokens[self.at]
            if not depth and token.is_first and token.column < column and found:
                break
            if token.kind == "sign":
                depth += (token.text in "([{") - (token.text in ")]}")
            if depth < 0:
                break
            if not found or not depth and token.is_first and token.column == column:
                found.append([])
            found[-1].append(token)
            self.at += 1
        return found

    def steps(self, statements, scope):
        first, *others = statements
        if not others:
            return Reader(self.page, first).whole(scope)
        if first[1].text != "←":
            raise SyntaxError(f"a line of `do` without an arrow: {' '.join(it.text for it in first)}")
        value, then = Reader(self.page, first[2:]).whole(scope), self.steps(others, scope + (first[0].text,))
        return lambda values: bound(value(values), lambda it: then(values + (it,)))

    # -- patterns: the names that each binds, and a function that returns their values, or None if a value does not match

    def pattern(self):
        names, match = self.pattern_of_case()
        if not self.skips("∷"):
            return names, match
        others, rest = self.pattern()
        return names + others, lambda value: in_turn((match, rest), (value[0], value[1:])) if value else None

    def pattern_of_case(self):
        if not self.sees_kind("name"):
            return self.pattern_atom()
        word, inner, arguments = *self.qualified(), []
        while self.sees_kind("name", "number") or self.sees("(", "["):
            arguments.append(self.pattern_atom())
        return self.case(word, inner, arguments)

    def qualified(self):
        word, inner = self.next().text, None
        while self.sees_kind("field"):
            self.at += 1
            inner = self.next().text
        return word, inner

    def pattern_atom(self):
        if self.sees_kind("name"):
            return self.case(*self.qualified(), [])
        token = self.next()
        if token.kind == "number":
            number = int(token.text, 0)
            return (), lambda value: () if value == number else None
        if token.text == "[":
            self.takes("]")
            return (), lambda value: None if value else ()
        parts = [self.pattern()]
        while self.skips(","):
            parts.append(self.pattern())
        self.takes(")")
        if len(parts) == 1:
            return parts[0]
        return sum((it[0] for it in parts), ()), lambda value: in_turn([it[1] for it in parts], value)

    def case(self, word, inner, arguments):
        names, matches = sum((it[0] for it in arguments), ()), [it[1] for it in arguments]
        if word == "suc":
            return names, lambda value: matches[0](value - 1) if value > 0 else None
        if word == "pos":
            return names, lambda value: matches[0](value) if value >= 0 else None
        if word == "negsuc":
            return names, lambda value: matches[0](-value - 1) if value < 0 else None
        if word in CONSTANTS:
            return (), lambda value: () if value == CONSTANTS[word] else None
        name = inner or self.page.case_name(word)
        if not name:
            return (word,), lambda value: (value,)
        return names, lambda value: in_turn(matches, value.values) if value.name == name else None


def in_turn(matches, values):
    found = ()
    for match, value in zip(matches, values):
        more = match(value)
        if more is None:
            return None
        found += more
    return found


def bound(value, then):
    return then(*value.values) if value.name in ("Ok", "Some") else value


def operation(word, left, right):
    if word == "&&":
        return lambda values: left(values) and right(values)
    if word == "||":
        return lambda values: left(values) or right(values)
    if word == "∷":
        return lambda values: (left(values),) + right(values)
    if word == ">>=":
        return lambda values: bound(left(values), lambda it: apply(right(values), it))
    return lambda values: NUMBERS[word](left(values), right(values))


# ---- pages


class Names:
    """The meanings of the names of a page."""

    def __init__(self, definitions, module):
        self.definitions, self.module, self.page = definitions, module, definitions.library.page(module)

    def is_qualifier(self, word):
        """Whether a word is an alias of a module, or a type, whose cases it qualifies."""
        return word in self.page.aliases or word[0].isupper() and word not in self.page.definitions and not self.case_name(word)

    def case_name(self, word):
        return self.definitions.case_name(self.module, word)

    def named(self, word, inner):
        """The value of a name, and the definitions that were computed for it, if it is not a function."""
        if inner and word not in self.page.aliases:
            return self.definitions.of_case(inner), ()
        with self.definitions.recorded() as used:
            return self.definitions.find(self.page.aliases[word], inner) if inner else self.definitions.find(self.module, word), used


def left_and_right(equation):
    """The tokens of the patterns of an equation, and those of its expression."""
    tokens, depth = tokens_of(equation), 0
    for at, token in enumerate(tokens):
        if token.kind == "sign":
            depth += (token.text in "([{") - (token.text in ")]}")
            if token.text == "=" and not depth:
                return tokens[1:at], tokens[at + 1:]
    raise SyntaxError(f"no equation: {equation}")


class Definitions:
    """The definitions of a library of pages (`reached.Library`). A path names one, as in `aes/Cipher.encrypted_block`."""

    def __init__(self, library):
        self.library, self.values, self.replaced, self.remembered, self.used = library, {}, {}, set(), set()

    def get(self, path):
        page, name = path.rsplit(".", 1)
        return self.find(page.replace("/", ".specs."), name)

    def call(self, path, *arguments):
        return apply(self.get(path), *arguments)

    def replace(self, path, arity, function):
        page, name = path.rsplit(".", 1)
        self.replaced[page.replace("/", ".specs."), name] = Function(arity, function)
        # Other definitions may have looked up the old one.
        self.values.clear()

    def remember(self, *names):
        """Caches the results of the definitions with these names, on any page."""
        self.remembered.update(names)

    @contextlib.contextmanager
    def recorded(self):
        """A set to which the definitions that are computed inside the block are added. They are in `used` too, as ever."""
        before = set(self.used)
        self.used.clear()
        inside = set()
        try:
            yield inside
        finally:
            inside.update(self.used)
            self.used.update(before)

    def of_case(self, name):
        return CONSTANTS.get(name, Case(name))

    def case_name(self, module, word):
        """The name of the case that this word means in a module, or None. A page may import it under another name."""
        page = None if ".declared." in module else self.library.page(module)
        # A page may have a definition with the name of a constant, such as the character `zero`.
        if page is not None and word in page.definitions:
            return None
        if word in CASES or word in CONSTANTS or ".TheVariants" in module:
            return word
        if page is None:
            return None
        if any(word in it.cases for it in page.definitions.values()):
            return word
        return self.case_name(*page.names[word]) if word in page.names else None

    def find(self, module, word):
        if (module, word) in self.replaced:
            return self.replaced[module, word]
        if word in BUILT and module.startswith(OF_PYTHON):
            return BUILT[word]
        if name := self.case_name(module, word):
            return self.of_case(name)
        page = self.library.page(module)
        if page and word in page.definitions:
            if (module, word) not in self.values:
                with self.recorded() as used:
                    self.values[module, word] = self.compiled(module, word, page.definitions[word].lines), used
            value, used = self.values[module, word]
            self.used.update(used)
            return value
        if page and word in page.names and page.names[word] != (module, word):
            return self.find(*page.names[word])
        if word in BUILT:
            return BUILT[word]
        raise NameError(f"{word} of {module} is not there")

    def compiled(self, module, name, lines):
        equations = []
        for line in lines[1:]:
            if re.match(re.escape(name) + r"(\s|$)", line):
                equations.append(line)
            elif equations:
                equations[-1] += "\n" + line
        if not equations:
            raise NameError(f"{name} of {module} has no equations")
        names = Names(self, module)
        arity = len(self.patterns(names, left_and_right(equations[0])[0]))
        if not arity:
            self.used.add((module, name))
            return self.equation(names, equations[0])[1](())

        @functools.cache
        def cases():
            return [self.equation(names, it) for it in equations]

        def body(*arguments):
            self.used.add((module, name))
            for matches, expression in cases():
                values = in_turn(matches, arguments)
                if values is not None:
                    return expression(values)
            raise ValueError(f"no equation of {name} of {module} matches {arguments}")

        return Function(arity, self.remembering(body) if name in self.remembered else body)

    def remembering(self, body):
        """The function with its results kept, and with the definitions that were computed for each."""
        kept = {}

        def found(*arguments):
            if arguments not in kept:
                with self.recorded() as used:
                    kept[arguments] = body(*arguments), used
            value, used = kept[arguments]
            self.used.update(used)
            return value
        return found

    def patterns(self, names, tokens):
        reader, found = Reader(names, tokens), []
        while reader.at < len(tokens):
            found.append(reader.pattern_atom())
        return found

    def equation(self, names, text):
        left, right = left_and_right(text)
        patterns = self.patterns(names, left)
        scope = sum((it[0] for it in patterns), ())
        return [it[1] for it in patterns], Reader(names, right).whole(scope)
