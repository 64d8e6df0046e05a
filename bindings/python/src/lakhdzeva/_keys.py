"""Keys that are checked when they are read."""

from __future__ import annotations

import os
from base64 import urlsafe_b64encode
from pathlib import Path
from typing import Any, Dict, List, Literal, NamedTuple, NoReturn, Type, Union

from . import _arguments, _library
from ._arguments import Octets
from .refusals import BadToken, Fault, Refused, refused

Hash = Literal["S224", "S256", "S384", "S512", "sha224", "sha256", "sha384", "sha512"]
KeysLike = Union["Keys", Dict[str, Any], List[Dict[str, Any]], str, bytes]

_SHA256 = _arguments.hash_bits("S256")


def _text_of(value: Any) -> bytes:
    kind = type(value)
    if issubclass(kind, list):
        return _arguments.dumped({"keys": value})
    if issubclass(kind, (dict, str, bytes)):
        return _arguments.json_text("keys", value)
    raise TypeError(f"keys must be Keys, a dict, a list of dicts, str or bytes, not {kind.__name__}")


def _thumbprints(text: bytes, bits: int) -> List[str]:
    status, places = _library.written(_library.thumbprints, (text, len(text), bits), _library.thumbprints_room(len(text)))
    if status:
        raise refused(status, Fault)
    return places[0].text().split("\n")


def _judged(text: bytes) -> bytes:
    """The number of each member of the text, as in lakhdzeva.h."""
    status, places = _library.written(_library.judge_keys, (text, len(text)), _library.judge_keys_room(len(text)))
    if status:
        raise refused(status, Fault)
    return places[0].content()


def _may(numbers: bytes, use: int) -> bool:
    return any(number & use for number in numbers)


class KeyUses(NamedTuple):
    """Whether a member of a text of keys is a valid key, and what it may do by some algorithm. A valid key (``good``) may do nothing if its
    length does not fit its ``alg``."""

    good: bool
    sign: bool
    verify: bool
    encrypt: bool
    decrypt: bool


def uses_of(keys: Any) -> List[KeyUses]:
    numbers: bytes = _NUMBERS(keys, type(keys)) if issubclass(type(keys), Keys) else _judged(_text_of(keys))
    names = (_library.GOOD, _library.MAY_SIGN, _library.MAY_VERIFY, _library.MAY_ENCRYPT, _library.MAY_DECRYPT)
    return [KeyUses(*(bool(number & name) for name in names)) for number in numbers]


class Keys:
    """One key or a set of keys, which is checked when it is made. Each call reads its text again.

    ``keys`` is a dict, a list of dicts, or the JSON text of a key or of a set. ``Keys.from_file`` reads this text from a file, and
    ``Keys.from_secret`` makes a key from the bytes of a secret. A text that has no valid key, or more than 64, is refused as a ``Fault``.

    With ``Keys`` a refusal of ``verify`` and ``decrypt`` is about the token, except for ``Memory``. A service that verifies tokens asks one thing
    when it starts, and ends if a key may not verify::

        if not all(uses.verify for uses in keys.uses):
            raise SystemExit(f"may not verify: {[at for at, uses in enumerate(keys.uses) if not uses.verify]}")

    - To verify and to decrypt, a key of a set that may not is skipped, and each token that it signed is ``17 NotOpened``. ``len(keys)`` is the
      number of the valid keys, and ``good`` is such a key. A valid key need not be usable: one of 5 bytes for HS256 verifies nothing.
    - ``can_sign``, ``can_verify``, ``can_encrypt`` and ``can_decrypt`` say whether one of them may. To sign and to encrypt, all of them must.

    Every function that takes keys takes ``Keys``, and does not write their JSON again. The printed form shows no secret and no thumbprint.
    ``bytes(keys)`` is the JSON text, with the secrets. ``Keys`` cannot be pickled, so that no secret gets into a file, a queue or a cache unseen.
    A copy is the same object, since nothing changes it.
    """

    __slots__ = ("_numbers", "_text", "_thumbprints")

    def __init__(self, keys: KeysLike) -> None:
        self._text = text_of(keys)
        self._numbers = _judged(self._text)
        self._thumbprints = _thumbprints(self._text, _SHA256)

    @classmethod
    def from_file(cls, path: Union[str, "os.PathLike[str]"]) -> "Keys":
        """Reads the JSON text of a key or of a set from a file. A file that cannot be read is an OSError.

        The text of a refusal begins with the name of the file, such as ``service.jwk: 7 Json``, which is its member ``file`` too.
        """
        text = Path(path).read_bytes()
        try:
            return cls(text)
        except Refused as problem:
            problem.file = os.fsdecode(path)
            raise

    @classmethod
    def from_secret(cls, secret: Octets, alg: str, kid: str = "") -> "Keys":
        """Makes a key from the bytes of a secret that both sides share, for one algorithm, such as ``HS256``.

        A secret that somebody gave as text is encoded as its sender encodes it: ``text.encode()`` for the characters themselves,
        ``bytes.fromhex(text)`` for hexadecimal digits. KeyDoesNotFit has two causes: the algorithm
        does not take a secret of this length (HS256 needs 32 bytes, RFC 7518, section 3.2), or no algorithm has this name, such as ``hs256``
        and ``RS256``. An empty secret is refused with Key.
        """
        octets = _arguments.octets("secret", secret)
        if type(alg) is not str:
            raise TypeError(f"alg must be a str, not {type(alg).__name__}")
        key = {"kty": "oct", "alg": alg, "k": urlsafe_b64encode(octets).rstrip(b"=").decode(), **({"kid": kid} if kid else {})}
        made = cls(key)
        # What may do nothing is refused here: another algorithm, or a length that does not fit. A password may have any length.
        if made._numbers == bytes([_library.GOOD]):
            raise refused(_KEY_DOES_NOT_FIT, Fault)
        return made

    @property
    def uses(self) -> List[KeyUses]:
        """What each member of the set may do, in order, with the invalid ones. The set of a key that is alone has one member."""
        return uses_of(self)

    @property
    def can_sign(self) -> bool:
        """Whether one of the keys may sign by some algorithm."""
        return _may(self._numbers, _library.MAY_SIGN)

    @property
    def can_verify(self) -> bool:
        """Whether one of the keys may verify signatures. A service asks of each key whether it may: ``all(it.verify for it in keys.uses)``."""
        return _may(self._numbers, _library.MAY_VERIFY)

    @property
    def can_encrypt(self) -> bool:
        """Whether one of the keys may encrypt by some algorithms."""
        return _may(self._numbers, _library.MAY_ENCRYPT)

    @property
    def can_decrypt(self) -> bool:
        """Whether one of the keys may decrypt by some algorithms."""
        return _may(self._numbers, _library.MAY_DECRYPT)

    def thumbprints(self, hash: Hash = "S256") -> List[str]:
        """The thumbprints (RFC 7638) of the valid keys, in order. That of a password is not safe to publish: it lets anyone test guesses."""
        bits = _arguments.hash_bits(hash)
        return list(self._thumbprints) if bits == _SHA256 else _thumbprints(self._text, bits)

    def __len__(self) -> int:
        return len(self._thumbprints)

    def __bytes__(self) -> bytes:
        return self._text

    def __repr__(self) -> str:
        return f"<lakhdzeva.Keys: {len(self._thumbprints)}>"

    def __copy__(self) -> "Keys":
        return self

    def __deepcopy__(self, memo: Any) -> "Keys":
        return self

    def __reduce_ex__(self, protocol: Any) -> NoReturn:
        raise TypeError("Keys hold secrets and cannot be pickled: let each process read them, or pass bytes(keys)")

    def __reduce__(self) -> NoReturn:
        self.__reduce_ex__(None)

    def __getstate__(self) -> NoReturn:
        self.__reduce_ex__(None)


# These slots are read so that a class that is derived from Keys answers nothing else.
_TEXT, _NUMBERS = Keys.__dict__["_text"].__get__, Keys.__dict__["_numbers"].__get__


def text_of(keys: Any) -> bytes:
    """The JSON text of the keys."""
    kind = type(keys)
    text: bytes = _TEXT(keys, kind) if issubclass(kind, Keys) else _text_of(keys)
    return text


def thumbprints_of(keys: Any, hash: Any) -> List[str]:
    bits = _arguments.hash_bits(hash)
    return _thumbprints(text_of(keys), bits)


# The numbers that are always about the machine or the keys, and those that may be about the keys or the token.
_FAULTS = (1, 2, 3, 4, 5, 9, 13)
_EITHER = (7, 8, 15)
_KEY_DOES_NOT_FIT, _LAST = 14, 17


def blamed(status: int, keys: Any = None, verifying: bool = False) -> Refused:
    """The exception for a call with a token. If it may be about keys that nobody has judged, they are judged now."""
    parent: Type[Refused] = Fault if status in _FAULTS or status > _LAST else BadToken
    if status in _EITHER and keys is not None and not issubclass(type(keys), Keys):
        try:
            _judged(_text_of(keys))
        except Refused:
            parent = Fault
    elif status == _KEY_DOES_NOT_FIT and verifying:
        numbers = _NUMBERS(keys, Keys) if issubclass(type(keys), Keys) else _judged(_text_of(keys))
        parent = BadToken if _may(numbers, _library.MAY_VERIFY) else Fault
    return refused(status, parent)
