"""Writes the completions for bash, zsh and fish. The files of lib/completions have what stands around the table of commands, with a place
such as @VERBS@ for each part of the table. descriptions.txt there says what each noun, command and letter is. Each file is installed by the
name of jose and of each tool, since a shell looks for a file of the name of the program.
"""
import re, shlex

from lib.trial import TOP

FOLDER, DESCRIPTIONS = TOP / "completions", TOP / "scripts/lib/completions/descriptions.txt"
# What the tools have of their own, and the letters of a command that a tool writes itself.
SET_VERBS = {"add": "add keys to a set", "join": "make a set of keys", "remove": "remove keys from a set"}
PASSWORD = {"n": ("ask twice", None), "a": ("algorithm", "algorithm"), "p": ("iterations", "number"), "f": ("file of the password", "file")}
ALGORITHMS = ["PBES2-HS256+A128KW", "PBES2-HS384+A192KW", "PBES2-HS512+A256KW"]
WRITTEN = {"jws ver": "ka", "jwe enc": "ki", "jwe dec": "k"}
HASHES = ["S224", "S256", "S384", "S512"]
# What the value of a letter is, by the role of the option: the name of a file, of a hash, or nothing for a flag.
VALUES = {"input": "file", "output": "file", "hash": "hash", "nothing": None}
ZSH_VALUES = {"file": "_files", "number": " ", "hash": f"({' '.join(HASHES)})", "algorithm": f"({' '.join(ALGORITHMS)})"}
FISH_VALUES = {"file": "-r -F", "number": "-x", "hash": f"-x -a '{' '.join(HASHES)}'", "algorithm": f"-x -a '{' '.join(ALGORITHMS)}'"}
# A line of the descriptions: a noun or a command, or a letter of the command before it. The shells take these characters as they are.
LINE = re.compile(r"(\w+(?: \w+)?|  -\w): ([A-Za-z0-9 ]+)")


def descriptions():
    """What each noun, command and letter is, by names such as `jws`, `jws sig` and `jws sig -k`; and what is wrong with the lines."""
    found, wrong, command = {}, [], None
    for line in DESCRIPTIONS.read_text().split("\n"):
        if not line or line.startswith("#"):
            continue
        read = LINE.fullmatch(line)
        if not read:
            wrong.append(f"the line `{line}` cannot be read")
            continue
        is_letter = line.startswith(" ")
        command = command if is_letter else read[1]
        name = f"{command} {read[1].strip()}" if is_letter else command
        if name in found:
            wrong.append(f"{name} is described twice")
        found[name] = read[2]
    return found, wrong


def problems(commands):
    """What is wrong with the descriptions. They describe each noun, command and letter of the table once, and nothing else."""
    found, wrong = descriptions()
    wanted = [*nouns(commands), *commands, *(f"{word} -{letter}" for word, letters in commands.items() for letter in letters)]
    wrong += [f"{name} is missing" for name in wanted if name not in found]
    # jose.bash goes by these letters.
    wrong += [f"{word} -{letter} is a hash" for word, letters in commands.items() for letter, one in letters.items() if one.role == "hash" and letter != "a"]
    return wrong + [f"{name} is not in the table of commands" for name in found if name not in wanted]


def nouns(commands):
    return sorted({word.split()[0] for word in commands})


def verbs(commands, noun):
    return [word.split()[1] for word in commands if word.split()[0] == noun]


def flags(commands):
    """The letters that take no value in any command."""
    return sorted({letter for letters in commands.values() for letter, one in letters.items() if not VALUES[one.role]})


def letters_of(commands, said, word, without=""):
    """What each letter of a command is, and its value."""
    return {letter: (said[f"{word} -{letter}"], VALUES[one.role]) for letter, one in commands[word].items() if letter not in without}


def for_tools(commands, said):
    """The letters of the tools: those before the command of jose-password, those after it, and those of jose-verify-all."""
    left = {word: letters_of(commands, said, word, without) for word, without in WRITTEN.items()}
    return PASSWORD, {word.split()[1]: left[word] for word in ("jwe enc", "jwe dec")}, left["jws ver"]


def for_bash(commands, said):
    """The places of the completion for bash, which shows no descriptions."""
    def marked(letters):
        return " ".join(f"{letter}:" if value else letter for letter, (_, value) in letters.items())

    own, password, verify_all = for_tools(commands, said)
    return {
        "NOUNS": [" ".join(nouns(commands))],
        "HASHES": [" ".join(HASHES)],
        "VERBS": [f"{noun}) letters='{' '.join(verbs(commands, noun))}' ;;" for noun in nouns(commands)],
        "LETTERS": [f"'{word}') letters='{marked(letters_of(commands, said, word))}' ;;" for word in commands],
        "PASSWORD": [f"{verb}) _jose_letters $((i + 1)) '{marked(letters)}' ''; return ;;" for verb, letters in password.items()],
        "PASSWORD_LETTERS": [marked(own)],
        "PASSWORD_ALGORITHMS": [" ".join(ALGORITHMS)],
        "SET_VERBS": [" ".join(SET_VERBS)],
        "VERIFY_ALL": [marked(verify_all)],
    }


def for_zsh(commands, said):
    def arguments(letters):
        return [f"'-{letter}+[{what}]:{what}:{ZSH_VALUES[value]}'" if value else f"'-{letter}[{what}]'" for letter, (what, value) in letters.items()]

    def case(word, letters):
        return [f"{word}) letters=(", *(f"    {argument}" for argument in arguments(letters)), ") ;;"]

    own, password, verify_all = for_tools(commands, said)
    places = {"NOUNS": [" ".join(f"'{noun}:{said[noun]}'" for noun in nouns(commands))], "VERBS": []}
    for noun in nouns(commands):
        listed = [f"'{verb}:{said[f'{noun} {verb}']}'" for verb in verbs(commands, noun)]
        places["VERBS"].append(f"{noun}) verbs=({' '.join(listed)}) ;;")
    places["LETTERS"] = [line for word in commands for line in case(f"'{word}'", letters_of(commands, said, word))]
    places["PASSWORD"] = [line for verb, letters in password.items() for line in case(verb, letters)]
    places["PASSWORD_ARGUMENTS"] = [" ".join(arguments(own))]
    places["SET_VERBS"] = [" ".join(f"'{verb}:{what}'" for verb, what in SET_VERBS.items())]
    places["VERIFY_ALL"] = [" ".join(arguments(verify_all))]
    return places


def for_fish(commands, said):
    def lines(program, condition, letters):
        for letter, (what, value) in letters.items():
            takes = f" {FISH_VALUES[value]}" if value else ""
            yield f"complete -c {program} -n '{condition(letter, value)}' -s {letter}{takes} -d {shlex.quote(what)}"

    def waits(start):
        return lambda letter, value: f"{start} {letter}{' value' if value else ''}"

    own, password, verify_all = for_tools(commands, said)
    places = {"FLAGS": ["".join(flags(commands))], "VERBS": [], "LETTERS": []}
    places["NOUNS"] = [f"complete -c jose -n '__jose_at 1' -a {noun} -d {shlex.quote(said[noun])}" for noun in nouns(commands)]
    for noun in nouns(commands):
        for verb in verbs(commands, noun):
            places["VERBS"].append(f"complete -c jose -n '__jose_at 2 {noun}' -a {verb} -d {shlex.quote(said[f'{noun} {verb}'])}")
    for word in commands:
        places["LETTERS"] += lines("jose", waits(f"__jose_lacks {word}"), letters_of(commands, said, word))
    places["PASSWORD"] = [line for verb, letters in {"none": own, **password}.items() for line in lines("jose-password", waits(f"__jose_password {verb}"), letters)]
    places["SET_VERBS"] = [f"complete -c jose-set -n '__jose_at 1' -a {verb} -d {shlex.quote(what)}" for verb, what in SET_VERBS.items()]
    places["VERIFY_ALL"] = list(lines("jose-verify-all", lambda letter, value: f"__jose_verify_all {letter}", verify_all))
    return places


def written(commands):
    """The text of each completion, by the name of its file. A part of several lines has the indentation of its place."""
    said, texts = descriptions()[0], {}
    for name, way in ("_jose", for_zsh), ("jose.bash", for_bash), ("jose.fish", for_fish):
        places = way(commands, said)
        text = (DESCRIPTIONS.parent / name).read_text()
        texts[name] = re.sub(r"( *)@([A-Z_]+)@", lambda place: place[1] + f"\n{place[1]}".join(places[place[2]]), text)
    return texts
