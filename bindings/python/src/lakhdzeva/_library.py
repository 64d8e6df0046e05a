"""Loads the shared library, declares its functions, and gives the places for their answers."""

from __future__ import annotations

import ctypes
import os
import sys
from ctypes import byref, c_char, c_char_p, c_size_t, c_uint, c_uint32, c_uint64, c_void_p
from pathlib import Path
from typing import Any, List, Tuple

_SONAME = "liblakhdzeva.so.3"


def _load() -> ctypes.CDLL:
    here = Path(__file__).resolve().parent
    beside = here / _SONAME
    # As with Python's own variables, `python3 -E` and `python3 -I` do not read it.
    named = None if sys.flags.ignore_environment else os.environ.get("LAKHDZEVA_LIBRARY")
    name = named or (str(beside) if beside.is_file() else _SONAME)
    try:
        return ctypes.CDLL(name)
    except OSError as error:
        raise ImportError(
            f"the shared library of lakhdzeva cannot be loaded: {error}. Install {_SONAME} where the system looks for libraries, "
            f"copy it into the folder {here}, or set LAKHDZEVA_LIBRARY to the name of its file."
        ) from error


LIBRARY = _load()

# A text is a pointer and a length. A place for an answer is a pointer, the octets that fit there, and a pointer to a length.
_TEXT = (c_char_p, c_size_t)
_PLACE = (c_void_p, c_size_t, ctypes.POINTER(c_size_t))


def function(name: str, *arguments: Any, result: Any = c_uint32) -> Any:
    try:
        found = getattr(LIBRARY, "lakhdzeva_" + name)
    except AttributeError as error:
        raise ImportError(f"{LIBRARY._name} is not version 3 of the shared library of lakhdzeva: {error}") from error
    found.argtypes = arguments
    found.restype = result
    return found


def _room(name: str, lengths: int) -> Any:
    """The function for the length that always suffices for an answer, by so many lengths."""
    return function(name + "_room", *[c_size_t] * lengths, result=c_size_t)


name_of, version = function("name", c_uint32, result=c_char_p), function("version", result=c_char_p)
generate, generate_room = function("generate", *_TEXT, *_PLACE), _room("generate", 1)
thumbprints, thumbprints_room = function("thumbprints", *_TEXT, c_uint, *_PLACE), _room("thumbprints", 1)
judge_keys, judge_keys_room = function("judge_keys", *_TEXT, *_PLACE), _room("judge_keys", 1)
sign, sign_room = function("sign", *_TEXT, *_TEXT, c_uint, *_TEXT, *_PLACE), _room("sign", 3)
verify, verify_room = function("verify", *_TEXT, *_TEXT, c_uint, *_PLACE), _room("verify", 1)
verify_detached = function("verify_detached", *_TEXT, *_TEXT, c_uint, *_TEXT)
verify_signer = function("verify_signer", *_TEXT, *_TEXT, *_PLACE, ctypes.POINTER(c_size_t))
verify_all = function("verify_all", *_TEXT, c_size_t, *_TEXT, *_PLACE)
verify_all_detached = function("verify_all_detached", *_TEXT, c_size_t, *_TEXT, *_TEXT)
encrypt, encrypt_room = function("encrypt", *_TEXT, *_TEXT, c_uint, *_TEXT, *_PLACE, *_PLACE), _room("encrypt", 3)
decrypt, decrypt_room = function("decrypt", *_TEXT, *_TEXT, *_TEXT, c_uint64, *_PLACE), _room("decrypt", 2)
format_signed = function("format_signed", *_TEXT, *_TEXT, c_uint, *_PLACE, *_PLACE)
format_encrypted = function("format_encrypted", *_TEXT, *_TEXT, c_uint, *_PLACE, *_PLACE)
format_room, content_room, ciphertext_room = _room("format", 2), _room("content", 2), _room("ciphertext", 1)

# enum lakhdzeva_flags in lakhdzeva.h.
COMPACT, DETACH, ALL = 1, 2, 4

# enum lakhdzeva_uses in lakhdzeva.h.
MAY_SIGN, MAY_VERIFY, MAY_ENCRYPT, MAY_DECRYPT, GOOD = 1, 2, 4, 8, 16


class _Symbol(ctypes.Structure):
    """Dl_info in dlfcn.h."""

    _fields_ = [("file", c_char_p), ("base", c_void_p), ("name", c_char_p), ("address", c_void_p)]


def file_name() -> str:
    """The file that was loaded, as the loader of the system names it."""
    symbol, dladdr = _Symbol(), ctypes.CDLL(None).dladdr
    dladdr.argtypes, dladdr.restype = (c_void_p, ctypes.POINTER(_Symbol)), ctypes.c_int
    found = dladdr(ctypes.cast(version, c_void_p), byref(symbol))
    return os.path.realpath(os.fsdecode(symbol.file)) if found else str(LIBRARY._name)


# An array of no octets leads to the first octet of any place. One type for all lengths saves the time to make a type for each length.
_Start = c_char * 0


class Place:
    """A place for an answer, and the length of the answer."""

    __slots__ = ("octets", "length")

    def __init__(self, room: int) -> None:
        self.octets = bytearray(room)
        self.length = c_size_t()

    def arguments(self) -> Tuple[Any, int, Any]:
        return _Start.from_buffer(self.octets), len(self.octets), byref(self.length)

    def content(self) -> bytes:
        return bytes(memoryview(self.octets)[: self.length.value])

    def text(self) -> str:
        return str(memoryview(self.octets)[: self.length.value], "utf-8")


def written(called: Any, arguments: Tuple[Any, ...], *rooms: int) -> Tuple[int, List[Place]]:
    """Calls a function that writes as many answers as there are rooms. Returns its status, and the places of the answers."""
    places = [Place(room) for room in rooms]
    return called(*arguments, *(it for place in places for it in place.arguments())), places


def written_with_number(called: Any, arguments: Tuple[Any, ...], room: int) -> Tuple[int, Place, int]:
    """Calls a function that writes an answer and a number. Returns its status, the place of the answer, and the number."""
    place, number = Place(room), c_size_t()
    status = called(*arguments, *place.arguments(), byref(number))
    return status, place, number.value
