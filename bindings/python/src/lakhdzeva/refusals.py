"""The refusals of the library. Each has a class here, with its ``number`` and its ``name``, which stay the same.

An exception that a call raises is also a ``BadToken`` or a ``Fault``, which says whose fault it is::

    try:
        payload = lakhdzeva.verify(keys, token)
    except lakhdzeva.BadToken:
        ...  # Its sender is at fault: a web service answers 401.
    except lakhdzeva.Fault:
        ...  # The keys or this machine are at fault: it answers 500.

``except refusals.NotOpened`` and ``refused.number == refusals.NotOpened.number`` ask for one refusal.
"""

from __future__ import annotations

from typing import Any, Dict, Optional, Tuple, Type

from . import _library

__all__ = [
    "BadToken",
    "Base64",
    "Fault",
    "Form",
    "Header",
    "Json",
    "Key",
    "KeyDoesNotFit",
    "Limit",
    "Memory",
    "NoAlgorithm",
    "NotCompact",
    "NotOpened",
    "Number",
    "Random",
    "Read",
    "Refused",
    "Unsupported",
    "Usage",
    "Write",
]


class Refused(Exception):
    """The library refused a call. The text is the number and the name, such as ``17 NotOpened``.

    The text of a refusal of ``Keys.from_file`` begins with the name of the file, ``file``, which is ``None`` otherwise.
    """

    number: int
    name: str
    file: Optional[str] = None

    def __init__(self, number: Optional[int] = None) -> None:
        self.number = self.number if number is None else number
        super().__init__(self.number)
        self.name = _library.name_of(self.number).decode()

    def __str__(self) -> str:
        return f"{self.file}: {self.number} {self.name}" if self.file else f"{self.number} {self.name}"

    def __repr__(self) -> str:
        parent = next((it.__name__ for it in (BadToken, Fault) if isinstance(self, it)), "Refused")
        return f"{parent}({self})"

    def __reduce__(self) -> Tuple[Any, ...]:
        parent = next((it for it in (BadToken, Fault) if isinstance(self, it)), None)
        return (refused, (self.number, parent), vars(self)) if parent else (type(self), (self.number,), vars(self))


class BadToken(Refused):
    """The token is bad, or is for other keys: its sender is at fault."""


class Fault(Refused):
    """The keys, a template, another argument or this machine are at fault, and not the sender of a token."""


class Usage(Refused):
    """The hash of a thumbprint is not supported."""

    number = 1


class Read(Refused):
    """Never."""

    number = 2


class Write(Refused):
    """Never, since each place is large enough."""

    number = 3


class Memory(Refused):
    """An allocation of the library failed."""

    number = 4


class Random(Refused):
    """The system gave no random bytes."""

    number = 5


class Base64(Refused):
    """A text that must be base64url is not."""

    number = 6


class Json(Refused):
    """A text that must be JSON is not."""

    number = 7


class Number(Refused):
    """A JSON number has a fraction, an exponent or more than 64 bits, or is -0."""

    number = 8


class Key(Refused):
    """Not a valid octet key, no such key in the set, or an invalid template for a key. For ``verify_all`` also another number of keys, and two keys
    that sign alike."""

    number = 9


class Form(Refused):
    """Members are missing, of the wrong type or not allowed together, or the number of parts is wrong."""

    number = 10


class Header(Refused):
    """A header member is missing or wrong."""

    number = 11


class Unsupported(Refused):
    """An algorithm, ``crit`` or ``zip`` is not supported."""

    number = 12


class NoAlgorithm(Refused):
    """Nothing names or implies the algorithm or the size."""

    number = 13


class KeyDoesNotFit(Refused):
    """The length, ``alg``, ``use`` or ``key_ops`` of the key does not fit."""

    number = 14


class Limit(Refused):
    """A limit is exceeded: keys, recipients, iterations, nesting."""

    number = 15


class NotCompact(Refused):
    """Compact form cannot hold the object."""

    number = 16


class NotOpened(Refused):
    """No key verifies the object, or decrypts it."""

    number = 17


_OWN = [
    Usage, Read, Write, Memory, Random, Base64, Json, Number, Key, Form, Header, Unsupported, NoAlgorithm, KeyDoesNotFit, Limit, NotCompact, NotOpened,
]
# The class of each exception that is raised: that of its number, and one of the two parents.
_RAISED: Dict[Tuple[int, Type[Refused]], Type[Refused]] = {}
for _class in _OWN:
    _class.name = _class.__name__
    for _parent in (BadToken, Fault):
        _RAISED[_class.number, _parent] = type(_class.__name__, (_class, _parent), {"__module__": __name__, "__doc__": _class.__doc__})


def refused(number: int, parent: Type[Refused]) -> Refused:
    """The exception for this number. Only another version of the library has a number without a class."""
    return _RAISED.get((number, parent), parent)(number)
