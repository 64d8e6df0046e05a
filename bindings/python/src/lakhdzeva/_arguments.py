"""The arguments of the functions, as octets and numbers for the shared library.

A class that is derived from a built-in one can have a `__len__`, an `encode` or an `items` of its own, which need not fit what it holds. So a
value of such a class is copied by the methods of the built-in class, which see what it holds. `type` and `issubclass` ask no `__class__`.
"""

from __future__ import annotations

import json
from typing import Any, Dict, Optional, Tuple, Union

from . import _library

Json = Union[Dict[str, Any], str, bytes]
Octets = Union[bytes, bytearray, memoryview]

# Floats are written, and the library refuses them.
_dump = json.JSONEncoder(ensure_ascii=False, allow_nan=False, separators=(",", ":")).encode
_WHOLE = slice(None)
# The greatest number that the library takes. A greater one means the same.
_MOST = 2**64 - 1


def encoded(text: str) -> bytes:
    # A lone surrogate becomes octets that are not UTF-8, which the library refuses.
    return str.encode(text, "utf-8", "surrogatepass")


def dumped(value: Any) -> bytes:
    return encoded(_dump(_plain(value)))


def _plain(value: Any) -> Any:
    """The value of JSON, made of built-in classes alone."""
    kind = type(value)
    if issubclass(kind, str):
        return str.__str__(value)
    if issubclass(kind, dict):
        return {_plain(name): _plain(member) for name, member in dict.items(value)}
    if issubclass(kind, list):
        return [_plain(member) for member in list.__iter__(value)]
    if issubclass(kind, tuple):
        return [_plain(member) for member in tuple.__iter__(value)]
    if issubclass(kind, int) and kind is not bool:
        return int.__index__(value)
    if issubclass(kind, float):
        return float.__float__(value)
    return value


def json_text(name: str, value: Any) -> bytes:
    kind = type(value)
    if issubclass(kind, dict):
        return dumped(value)
    if issubclass(kind, str):
        return encoded(value)
    if issubclass(kind, bytes):
        return bytes.__getitem__(value, _WHOLE)
    raise TypeError(f"{name} must be a dict, str or bytes, not {kind.__name__}")


def template(value: Optional[Json]) -> bytes:
    return b"{}" if value is None else json_text("template", value)


def octets(name: str, value: Any) -> bytes:
    kind = type(value)
    if issubclass(kind, bytes):
        return bytes.__getitem__(value, _WHOLE)
    if kind is bytearray or kind is memoryview:
        return bytes(value)  # A copy, because another thread can change the value during the call.
    if issubclass(kind, bytearray):
        return bytes(bytearray.__getitem__(value, _WHOLE))
    if issubclass(kind, str):
        raise TypeError(f"{name} must be octets, not str: encode it, for example with {name}.encode()")
    raise TypeError(f"{name} must be bytes, bytearray or memoryview, not {kind.__name__}")


def flag(name: str, value: Any) -> bool:
    if value is True or value is False:
        return value
    raise TypeError(f"{name} must be True or False, not of type {type(value).__name__}")


def form(compact: Any) -> int:
    return flag("compact", compact) * _library.COMPACT


def content(name: str, value: Optional[Octets]) -> Tuple[Optional[bytes], int]:
    """A content that is handed in, and its length. If it is in the token, there is none."""
    given = None if value is None else octets(name, value)
    return given, len(given or b"")


def number(name: str, value: Any) -> int:
    kind = type(value)
    if not issubclass(kind, int) or kind is bool:
        raise TypeError(f"{name} must be an int, not {kind.__name__}")
    given = int.__index__(value)
    if given < 0:
        raise ValueError(f"{name} must not be negative")
    return min(given, _MOST)


# The bits of a hash, by its names in thumbprints and in hashlib.
_BITS = {name: bits for bits in (224, 256, 384, 512) for name in (f"S{bits}", f"sha{bits}")}


def hash_bits(value: Any) -> int:
    """The bits of the hash, or 0, which the library refuses."""
    if not issubclass(type(value), str):
        raise TypeError(f"hash must be a str, not {type(value).__name__}")
    return _BITS.get(str.__str__(value), 0)
