"""Reads the table of commands and the refusals from the definitions in crates/jose/specs and crates/octets/specs, to which those of the code
are proved equal."""
import collections, re

import reached
from lib.antt import Definitions
from lib.sources import ROOT

# An option: its kind (`flag`, `required`, `optional` or `default`), its default, and its role, which is what its value names (`input`,
# `output`, `hash` or `nothing`).
Option = collections.namedtuple("Option", "kind default role")
ROLES = {"Json": "input", "Keys": "input", "Streamed": "input", "Octets": "input", "Output": "output", "Secret": "output", "MadeKey": "output",
         "Hash": "hash", "Nothing": "nothing"}


def text(octets):
    return bytes(octets).decode()


def option_of(entry, system_random):
    """The letter of an option, and what the table says of it. Without a value, `-R` names the device of the system."""
    letter, takes, role = (entry.fields[it] for it in ("letter", "takes", "role"))
    if chr(letter) == "R":
        return "R", Option("default", system_random, ROLES[role.name])
    return chr(letter), Option(takes.name, text(takes.values[0]) if takes.name == "default" else None, ROLES[role.name])


def read():
    """The commands, each with its options by their letters; and the refusals, each with its number and name, in their order."""
    call = Definitions(reached.Library(f"{ROOT}/crates", reached.kit_folder())).call
    system_random, commands = text(call("jose/Files.system_random")), {}
    for row in call("jose/Words.commands"):
        words = f"{text(row.fields['noun'])} {text(row.fields['verb'])}"
        commands[words] = dict(option_of(it, system_random) for it in row.fields["options"])
    page = open(f"{ROOT}/crates/octets/specs/Refusals.antt", encoding="utf-8").read()
    return commands, re.findall(r'^refusal_text \w+ = codes "(\d+ \w+)"$', page, re.M)
