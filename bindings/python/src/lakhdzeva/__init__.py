"""Sign and verify (JWS, RFC 7515), encrypt and decrypt (JWE, RFC 7516) with octet keys (JWK, RFC 7517).

    import lakhdzeva

    keys = lakhdzeva.Keys.from_file("service.jwk")
    token = lakhdzeva.sign(keys, b"replicas: 3")
    try:
        payload = lakhdzeva.verify(keys, token)
    except lakhdzeva.BadToken as refused:
        raise SystemExit(f"not accepted: {refused}")  # such as 17 NotOpened

The shared library ``liblakhdzeva.so.3`` does the work. This module passes bytes to it and decides nothing.

- ``keys`` is ``Keys``, which a service makes once, when it starts. It can also be one key, or a set of keys: a dict, a list of dicts, or a
  JSON text (``str`` or ``bytes``), which is passed as it is. Each call reads the text of the keys again, that of ``Keys`` too.
- ``template`` is a dict or a JSON text: the headers of a token, or the members of a key. ``None`` means ``{}``, which lets the keys decide.
- A token is a ``str``, ``bytes``, or the dict of its JSON form. A function that makes a token returns a ``str``.
- A payload, a plaintext and a ciphertext are bytes: ``bytes``, ``bytearray`` or ``memoryview``.
- A flag is ``True`` or ``False``, and nothing else that is true or false. A number is an ``int``.

A value of a class that is derived from one of these types counts as its built-in content: its own methods are not called.

A refusal of the library is an exception, ``Refused``. If it is a ``BadToken``, the sender of the token is at fault. If it is a ``Fault``, the
keys, a template or this machine are. The module ``refusals`` has a class for each refusal. An argument of another type is a
``TypeError``. A dict that cannot be written as JSON raises a ``TypeError``, a ``ValueError`` (such as one with a NaN) or a ``RecursionError`` (such as one that holds itself).

What to mind with every function:

- All keys are shared secrets: whoever can verify can also sign, and whoever can decrypt can also encrypt.
- A key without ``alg`` is used for each algorithm that takes its length. So write ``alg`` and ``key_ops`` into each key.
- The member ``kid`` never selects a key: each key that you pass is tried.
- If a name is repeated in a JSON object, the last one counts.
- A token takes up to 132 times its length in memory, and an object in JSON form up to 350 times. So limit the length of a stranger's text.
- The library wipes the memory that it used. Python's own is not wiped: keys and plaintext can stay there.
- The timing of reading a key's text depends on the key.

The module has no state. Any number of threads may call its functions, and they run at the same time. A thread needs 256 KiB of stack,
which ``threading.stack_size`` can set too low. Nothing ends a call before it returns: an exception of a signal handler, such as
``KeyboardInterrupt``, comes after the call. C code of yours must not jump out of a call (``siglongjmp``), or cancel its thread.
"""

from __future__ import annotations

import json
from pathlib import Path
from typing import Any, Dict, List, NamedTuple, Optional, Tuple

from . import _arguments, _library, refusals
from ._arguments import Json, Octets
from ._keys import Hash, Keys, KeysLike, KeyUses, blamed, text_of, thumbprints_of, uses_of
from .refusals import BadToken, Fault, Refused, refused

__all__ = [
    "BadToken",
    "Fault",
    "KeyUses",
    "Keys",
    "Refused",
    "Signed",
    "decrypt",
    "encrypt",
    "encrypt_detached",
    "format_encrypted",
    "format_encrypted_detached",
    "format_signed",
    "format_signed_detached",
    "generate",
    "judge_keys",
    "library",
    "refusals",
    "sign",
    "sign_detached",
    "thumbprint",
    "thumbprints",
    "verify",
    "verify_all",
    "verify_all_detached",
    "verify_detached",
    "verify_signer",
]


def _read_version() -> str:
    # An installed package has the file next to it. In the sources it is next to pyproject.toml, or at the top of the repository.
    here = Path(__file__).resolve().parent
    sources = here.parent.parent
    for folder in (here, sources, sources.parent.parent):
        if (folder / "VERSION").is_file():
            return (folder / "VERSION").read_text("utf-8").split()[0]
    return "unknown"


__version__ = _read_version()


class Library(NamedTuple):
    """The shared library that is loaded."""

    file: str
    version: str


def library() -> Library:
    """Returns the name of the file of the shared library that was loaded, and its version."""
    return Library(_library.file_name(), _library.version().decode())


def _made(function: Any, arguments: Tuple[Any, ...], *rooms: int) -> List[_library.Place]:
    """Calls a function that makes something. Whatever it refuses is the caller's."""
    status, places = _library.written(function, arguments, *rooms)
    if status:
        raise refused(status, Fault)
    return places


# ---- Keys


def generate(template: Optional[Json] = None) -> Dict[str, Any]:
    """Makes a key (RFC 7517) from random bytes of the system.

    ``template`` has the members of the key, for example ``{"alg": "HS256"}`` or ``{"alg": "A256GCM", "kid": "7"}``. ``{"bytes": 32}`` gives
    a key of 32 bytes without an algorithm. If it has an ``alg``, but no ``use`` and no ``key_ops``, the key gets the ``key_ops`` of the ``alg``.

    Refusals: Json, Number and Key for an invalid template, Limit, Unsupported, NoAlgorithm, KeyDoesNotFit, Random, Memory.
    """
    text = _arguments.template(template)
    (place,) = _made(_library.generate, (text, len(text)), _library.generate_room(len(text)))
    key: Dict[str, Any] = json.loads(place.text())
    return key


def thumbprints(keys: KeysLike, hash: Hash = "S256") -> List[str]:
    """Returns the thumbprints (RFC 7638) of the valid keys of a set, in order. ``hash`` is ``S224``, ``S256``, ``S384`` or ``S512``, or the name
    that hashlib has for it, such as ``sha256``.

    The thumbprint of a password is not safe to publish: it lets anyone test guesses.

    Refusals: Usage for another hash, Json, Number, Key, Limit, Memory.
    """
    return thumbprints_of(keys, hash)


def thumbprint(key: KeysLike, hash: Hash = "S256") -> str:
    """Returns the thumbprint (RFC 7638) of one key. A set with more than one valid key is a ValueError.

    The rest is as for ``thumbprints``.
    """
    lines = thumbprints_of(key, hash)
    if len(lines) > 1:
        raise ValueError("this is a set with more than one key: call thumbprints")
    return lines[0]


def judge_keys(keys: KeysLike) -> List[KeyUses]:
    """Returns what each member of a set of keys may do, in order. A key that is alone is the one member.

    ``Keys.uses`` is the same, and is checked once. A member with ``good=False`` is no octet key, or a damaged one. One with
    ``good=True`` need not be usable, so ask for ``verify`` if it has to verify.

    - A key may do something if it may by some algorithm. Whether it fits a token shows when that comes.
    - Whoever has a key can do with it what it may not do: ``use`` and ``key_ops`` are rules for this library and others like it.

    Refusals: Json, Number, Key, Limit, Memory.
    """
    return uses_of(keys)


# ---- Signed tokens


def _signed(keys: KeysLike, payload: Octets, template: Optional[Json], flags: int) -> str:
    text, template_text, octets = text_of(keys), _arguments.template(template), _arguments.octets("payload", payload)
    room = _library.sign_room(len(text), len(template_text), 0 if flags & _library.DETACH else len(octets))
    return _made(_library.sign, (text, len(text), template_text, len(template_text), flags, octets, len(octets)), room)[0].text()


def sign(keys: KeysLike, payload: Octets, template: Optional[Json] = None, *, compact: bool = True) -> str:
    """Signs the payload with each of the keys (RFC 7515, section 5.1) and returns the token.

    ``template`` has the headers, for example ``{"protected": {"alg": "HS256", "kid": "7"}}``. Without an algorithm, the key's ``alg`` or
    its length decides. Compact form holds one signature. JSON form (``compact=False``) holds one for each key.

    The payload is in the token as it is, and not secret. ``header`` in the template is a header that is not signed.

    Refusals: Json, Number, Key and Limit for invalid keys; Json, Number, Form, Header and Unsupported for an invalid template; NoAlgorithm,
    KeyDoesNotFit, Limit, NotCompact, Memory.
    """
    return _signed(keys, payload, template, _arguments.form(compact))


def sign_detached(keys: KeysLike, payload: Octets, template: Optional[Json] = None, *, compact: bool = True) -> str:
    """Signs the payload with each of the keys and returns the token without the payload (RFC 7515, appendix F).

    The rest is as for ``sign``.
    """
    return _signed(keys, payload, template, _arguments.form(compact) | _library.DETACH)


def verify(keys: KeysLike, token: Json, *, all: bool = False) -> bytes:
    """Verifies a signed token (RFC 7515, section 5.2) and returns its payload.

    One of the keys must have made one of the signatures. The keys say whom you trust: never take them from the token.

    - With ``all`` each valid key must have made a signature. It skips invalid keys, and takes one signature for two keys that sign alike.
      So for a rule such as "Ann and Bob must both sign" call ``verify_all``.
    - It checks no claims, such as ``exp`` of a JWT.
    - An old token verifies too, so put a number or a date into what you sign.
    - One token has many texts: to revoke it, list an id in its payload, and not its text.
    - In JSON form a header can be unsigned, or belong to a signature that none of your keys made: if a header matters, accept only compact
      form.
    - It computes an HMAC of the payload for each key, algorithm and protected header, at most 256 times 64: limit the length of what
      strangers send.

    Refusals: Json, Number, Key and Limit for invalid keys; Json, Number, Form, Limit, Base64, Header and Unsupported for an invalid token;
    KeyDoesNotFit if no key may verify a signature; NotOpened if no signature is right; Memory.
    """
    text, octets = text_of(keys), _arguments.json_text("token", token)
    arguments = (text, len(text), octets, len(octets), _arguments.flag("all", all) * _library.ALL)
    status, (payload,) = _library.written(_library.verify, arguments, _library.verify_room(len(octets)))
    if status:
        raise blamed(status, keys, True)
    return payload.content()


def verify_detached(keys: KeysLike, token: Json, payload: Octets, *, all: bool = False) -> None:
    """Verifies a signed token with this payload, which it does not contain (RFC 7515, appendix F). A token that has a payload of its own is
    refused with Form.

    The rest is as for ``verify``.
    """
    text, octets, content = text_of(keys), _arguments.json_text("token", token), _arguments.octets("payload", payload)
    flags = _arguments.flag("all", all) * _library.ALL
    status = _library.verify_detached(text, len(text), octets, len(octets), flags, content, len(content))
    if status:
        raise blamed(status, keys, True)


class Signed(NamedTuple):
    """The payload of a token, and the position of the key that signed it, from 0."""

    payload: bytes
    signer: int


def verify_signer(keys: KeysLike, token: Json) -> Signed:
    """Verifies a signed token, and returns its payload and the position in the set, from 0, of the first key that made a signature.

    It is for a service whose keys belong to different parties. An invalid key is refused as by ``sign``, so the position counts every key of the set.

    - Nobody but the owner of a key may know it: whoever has the bytes of a key can sign as its owner.
    - A token in JSON form can have signatures of several keys. This names the first key of the set that made one, and no other.

    The rest is as for ``verify``.

    Refusals: Json, Number, Key and Limit for invalid keys; Json, Number, Form, Limit, Base64, Header and Unsupported for an invalid token;
    KeyDoesNotFit if no key may verify a signature; NotOpened if no signature is right; Memory.
    """
    text, octets = text_of(keys), _arguments.json_text("token", token)
    arguments = (text, len(text), octets, len(octets))
    status, payload, signer = _library.written_with_number(_library.verify_signer, arguments, _library.verify_room(len(octets)))
    if status:
        raise blamed(status, keys, True)
    return Signed(payload.content(), signer)


def verify_all(keys: KeysLike, signers: int, token: Json) -> bytes:
    """Verifies that each key of the set signed the token, and returns its payload. The set has exactly ``signers`` keys.

    It is for rules about people, such as "Ann and Bob must both sign". An invalid key is refused as by ``sign``. Two keys that sign alike are
    refused too: HMAC fills a short key with zeros and hashes a long one (RFC 2104), so keys that differ can make the same signatures.

    - Use one call for one rule: two calls with two sets both succeed by one signature, if its key is in both sets.
    - It counts keys, not people: whoever has two keys signs for two. So let each person compare the thumbprint of his key.
    - The host that verifies has all keys, so it could sign as well.

    The rest is as for ``verify``.

    Refusals: Json, Number, Key and Limit for invalid keys; Key for another number of keys, and for two that sign alike; Json, Number, Form,
    Limit, Base64, Header and Unsupported for an invalid token; NotOpened unless each key made a signature; Memory.
    """
    text, number, octets = text_of(keys), _arguments.number("signers", signers), _arguments.json_text("token", token)
    arguments = (text, len(text), number, octets, len(octets))
    status, (payload,) = _library.written(_library.verify_all, arguments, _library.verify_room(len(octets)))
    if status:
        raise blamed(status, keys, True)
    return payload.content()


def verify_all_detached(keys: KeysLike, signers: int, token: Json, payload: Octets) -> None:
    """Verifies that each key of the set signed the token with this payload, which it does not contain (RFC 7515, appendix F).

    The rest is as for ``verify_all``.
    """
    text, number = text_of(keys), _arguments.number("signers", signers)
    octets, content = _arguments.json_text("token", token), _arguments.octets("payload", payload)
    status = _library.verify_all_detached(text, len(text), number, octets, len(octets), content, len(content))
    if status:
        raise blamed(status, keys, True)


# ---- Encrypted tokens


def _encrypted(keys: KeysLike, plaintext: Octets, template: Optional[Json], flags: int) -> Tuple[str, bytes]:
    text, template_text, octets = text_of(keys), _arguments.template(template), _arguments.octets("plaintext", plaintext)
    detached = flags & _library.DETACH
    token, ciphertext = _made(
        _library.encrypt,
        (text, len(text), template_text, len(template_text), flags, octets, len(octets)),
        _library.encrypt_room(len(text), len(template_text), 0 if detached else len(octets)),
        _library.ciphertext_room(len(octets)) if detached else 0,
    )
    return token.text(), ciphertext.content()


def encrypt(keys: KeysLike, plaintext: Octets, template: Optional[Json] = None, *, compact: bool = True) -> str:
    """Encrypts the plaintext to each of the keys (RFC 7516, section 5.1) and returns the token.

    ``template`` has the headers, for example ``{"protected": {"alg": "A256KW", "enc": "A256GCM"}}``. Without algorithms, the key's ``alg``
    or its length decides. Compact form holds one recipient. JSON form (``compact=False``) holds one for each key.

    - The recipients share its random key, so each of them can put another plaintext into the token.
    - When a host leaves, make a new key for each recipient that stays.
    - Without an ``alg``, a password of 16, 24 or 32 bytes is used as a key itself, without iterations.
    - A password takes 100,000 iterations, or ``p2c`` of the template: name 600,000 there for one password.
    - Use a key for at most 2^32 tokens with AES-GCM key wrap, or with ``dir`` and a GCM.
    - In the template ``unprotected`` is a header that is not authenticated, and ``aad`` is a text that everyone can read.

    Refusals: Json, Number, Key and Limit for invalid keys; Json, Number, Form, Base64, Header and Unsupported for an invalid template;
    NoAlgorithm, KeyDoesNotFit, Limit, NotCompact, Random, Memory.
    """
    return _encrypted(keys, plaintext, template, _arguments.form(compact))[0]


def encrypt_detached(keys: KeysLike, plaintext: Octets, template: Optional[Json] = None, *, compact: bool = True) -> Tuple[str, bytes]:
    """Encrypts the plaintext to each of the keys, and returns the token without its ciphertext, and the ciphertext.

    The rest is as for ``encrypt``.
    """
    return _encrypted(keys, plaintext, template, _arguments.form(compact) | _library.DETACH)


def decrypt(keys: KeysLike, token: Json, *, ciphertext: Optional[Octets] = None, iterations: int = 0) -> bytes:
    """Decrypts an encrypted token with one of the keys (RFC 7516, section 5.2) and returns the plaintext.

    ``ciphertext`` is the ciphertext if the token does not contain it. ``iterations`` is the most iterations of PBKDF2 that the call may make
    in all. With 0 no password is tried.

    - A token names its iterations itself, so a stranger's costs seconds: 2,000,000 for each recipient, and 16,000,000 in all. A greater
      number means 16,000,000.
    - The sum counts each recipient with each key that fits. If it is above the number, the call is ``15 Limit``, before any derivation.
    - A password may have any length, so every key without ``alg`` fits. Give each key an ``alg``: then one that is no password costs no
      iteration.
    - Name 600,000 for one password of today's recommendation.
    - The recipients share its random key, so each of them can put another plaintext into the token.
    - A malicious writer can make a token that opens to two plaintexts for two recipients.
    - It notices a changed ``aad``, but does not check its text.
    - Each pair of a recipient and a key that fits can cost a pass over the ciphertext, at most 256 times 64. An attacker without a key can
      cause many of them: limit the length of strangers' objects.

    Refusals: Json, Number, Key and Limit for invalid keys; Json, Number, Form, Limit, Base64, Header and Unsupported for an invalid token;
    KeyDoesNotFit if no key may decrypt; Limit for too many iterations; NotOpened if no key decrypts; Memory.
    """
    text, octets, most = text_of(keys), _arguments.json_text("token", token), _arguments.number("iterations", iterations)
    given, length = _arguments.content("ciphertext", ciphertext)
    arguments = (text, len(text), octets, len(octets), given, length, most)
    status, (plaintext,) = _library.written(_library.decrypt, arguments, _library.decrypt_room(len(octets), length))
    if status:
        raise blamed(status, keys)
    return plaintext.content()


# ---- Other forms


def _formatted(function: Any, token: Json, flags: int, name: str, content: Optional[Octets]) -> Tuple[str, bytes]:
    octets = _arguments.json_text("token", token)
    given, length = _arguments.content(name, content)
    detached = flags & _library.DETACH
    status, (text, apart) = _library.written(
        function,
        (octets, len(octets), given, length, flags),
        _library.format_room(len(octets), 0 if detached else length),
        _library.content_room(len(octets), length) if detached else 0,
    )
    if status:
        raise blamed(status)
    return text.text(), apart.content()


def format_signed(token: Json, *, compact: bool = False, payload: Optional[Octets] = None) -> str:
    """Writes a signed token in JSON form, or in compact form (RFC 7515, section 7). It sees no key and verifies nothing. Unknown members are
    left out.

    ``payload`` is the payload if the token does not contain it.

    Refusals: Json, Number, Form, Limit, Base64, Header and Unsupported for an invalid token; NotCompact, Memory.
    """
    return _formatted(_library.format_signed, token, _arguments.form(compact), "payload", payload)[0]


def format_signed_detached(token: Json, *, compact: bool = False, payload: Optional[Octets] = None) -> Tuple[str, bytes]:
    """Writes a signed token without its payload, and returns it and the payload (RFC 7515, appendix F). It verifies nothing.

    The rest is as for ``format_signed``.
    """
    return _formatted(_library.format_signed, token, _arguments.form(compact) | _library.DETACH, "payload", payload)


def format_encrypted(token: Json, *, compact: bool = False, ciphertext: Optional[Octets] = None) -> str:
    """Writes an encrypted token in JSON form, or in compact form (RFC 7516, section 7). It sees no key and decrypts nothing. Unknown members
    are left out.

    ``ciphertext`` is the ciphertext if the token does not contain it.

    Refusals: Json, Number, Form, Limit, Base64, Header and Unsupported for an invalid token; NotCompact, Memory.
    """
    return _formatted(_library.format_encrypted, token, _arguments.form(compact), "ciphertext", ciphertext)[0]


def format_encrypted_detached(token: Json, *, compact: bool = False, ciphertext: Optional[Octets] = None) -> Tuple[str, bytes]:
    """Writes an encrypted token without its ciphertext, and returns it and the ciphertext. It decrypts nothing.

    The rest is as for ``format_encrypted``.
    """
    return _formatted(_library.format_encrypted, token, _arguments.form(compact) | _library.DETACH, "ciphertext", ciphertext)
