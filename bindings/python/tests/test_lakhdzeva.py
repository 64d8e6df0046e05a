"""Tests of the package. Expected values come from the standards and from Python's hashlib and hmac.

The tests of the class Lies also run under valgrind (scripts/bindings), which sees what the library reads outside of a value.

Run it with the name of the shared library in LAKHDZEVA_LIBRARY:

    PYTHONPATH=bindings/python/src python3 -m unittest discover -s bindings/python/tests
"""

import array
import base64
import copy
import ctypes
import functools
import hashlib
import hmac
import io
import itertools
import json
import multiprocessing.reduction
import os
import pickle
import subprocess
import sys
import tempfile
import threading
import time
import tracemalloc
import unittest
from concurrent.futures import ThreadPoolExecutor
from pathlib import Path
from unittest import mock

import lakhdzeva
from lakhdzeva import BadToken, Fault, Refused, _library, refusals

# RFC 7515 appendix A.1.
RFC7515_KEY = (
    '{"kty":"oct","k":"AyM1SysPpbyDfgZld3umj1qzKObwVMkoqQ-EstJQLr_T-1qS0gZH75aKtMN3Yj0iPS4hcgUuTwjAzZr1Z9CAow"}'
)
RFC7515_A1 = (
    "eyJ0eXAiOiJKV1QiLA0KICJhbGciOiJIUzI1NiJ9.eyJpc3MiOiJqb2UiLA0KICJleHAiOjEzMDA4MTkzODAsDQogImh0dHA6Ly9leGFtcGxlLmNvbS9pc19"
    "yb290Ijp0cnVlfQ.dBjftJeZ4CVP-mB92K27uhbUJU1p1r_wW1gFWFOEjXk"
)
RFC7515_CLAIMS = b'{"iss":"joe",\r\n "exp":1300819380,\r\n "http://example.com/is_root":true}'
# RFC 7516 appendix A.3, with the random octets in the order in which they are drawn, and appendices A.4 and A.5.
RFC7516_KEY = (
    '{"kty":"oct","k":"GawgguFyGrWKav7AX4VKUg"}'
)
RFC7516_RANDOM = bytes.fromhex("04d31fc5549dfcfe0b649dfa3faa6ace6b7cd42d6f6b09dbc8b100f08f9c2ccf03163c0c2b4368696c6c69636f746865")
RFC7516_A3 = (
    "eyJhbGciOiJBMTI4S1ciLCJlbmMiOiJBMTI4Q0JDLUhTMjU2In0.6KB707dM9YTIgHtLvtgWQ8mKwboJW3of9locizkDTHzBC2IlrT1oOQ.AxY8DCtDaGlsb"
    "Gljb3RoZQ.KDlTtXchhZTGufMYmOYGS4HffxPSUrfmqCHXaI9wOGY.U0m_YmjN04DJvceFICbCVQ"
)
RFC7516_A4 = (
    '{"protected":"eyJlbmMiOiJBMTI4Q0JDLUhTMjU2In0","unprotected":{"jku":"https://server.example.com/keys.jwks"},"recipients"'
    ':[{"header":{"alg":"RSA1_5","kid":"2011-04-29"},"encrypted_key":"UGhIOguC7IuEvf_NPVaXsGMoLOmwvc1GyqlIKOK1nN94nHPoltGRhWh'
    "w7Zx0-kFm1NJn8LE9XShH59_i8J0PH5ZZyNfGy2xGdULU7sHNF6Gp2vPLgNZ__deLKxGHZ7PcHALUzoOegEI-8E66jX2E4zyJKx-YxzZIItRzC5hlRirb6Y5"
    "Cl_p-ko3YvkkysZIFNPccxRU7qve1WYPxqbb2Yw8kZqa2rMWI5ng8OtvzlV7elprCbuPhcCdZ6XDP0_F8rkXds2vE4X-ncOIM8hAYHHi29NX0mcKiRaD0-D-"
    'ljQTP-cFPgwCp6X-nZZd9OHBv-B3oWh2TbqmScqXMR4gp_A"},{"header":{"alg":"A128KW","kid":"7"},"encrypted_key":"6KB707dM9YTIgHtL'
    'vtgWQ8mKwboJW3of9locizkDTHzBC2IlrT1oOQ"}],"iv":"AxY8DCtDaGlsbGljb3RoZQ","ciphertext":"KDlTtXchhZTGufMYmOYGS4HffxPSUrfmqC'
    'HXaI9wOGY","tag":"Mz-VPPyU4RlcuYv1IwIvzw"}'
)
RFC7516_A5 = (
    '{"protected":"eyJlbmMiOiJBMTI4Q0JDLUhTMjU2In0","unprotected":{"jku":"https://server.example.com/keys.jwks"},"header":{"a'
    'lg":"A128KW","kid":"7"},"encrypted_key":"6KB707dM9YTIgHtLvtgWQ8mKwboJW3of9locizkDTHzBC2IlrT1oOQ","iv":"AxY8DCtDaGlsbGljb'
    '3RoZQ","ciphertext":"KDlTtXchhZTGufMYmOYGS4HffxPSUrfmqCHXaI9wOGY","tag":"Mz-VPPyU4RlcuYv1IwIvzw"}'
)
LINE = b"Live long and prosper."
# RFC 7520 sections 4.4, 5.7 and 5.8.
RFC7520_SIGNING_KEY = (
    '{"kty":"oct","kid":"018c0ae5-4d9b-471b-bfd6-eef314bc7037","use":"sig","alg":"HS256","k":"hJtXIZ2uSN5kbQfbtTNWbpdmhkV8FJG'
    '-Onbc6mxCcYg"}'
)
RFC7520_4_4 = (
    "eyJhbGciOiJIUzI1NiIsImtpZCI6IjAxOGMwYWU1LTRkOWItNDcxYi1iZmQ2LWVlZjMxNGJjNzAzNyJ9.SXTigJlzIGEgZGFuZ2Vyb3VzIGJ1c2luZXNzLCB"
    "Gcm9kbywgZ29pbmcgb3V0IHlvdXIgZG9vci4gWW91IHN0ZXAgb250byB0aGUgcm9hZCwgYW5kIGlmIHlvdSBkb24ndCBrZWVwIHlvdXIgZmVldCwgdGhlcmX"
    "igJlzIG5vIGtub3dpbmcgd2hlcmUgeW91IG1pZ2h0IGJlIHN3ZXB0IG9mZiB0by4.s0h6KThzkfBBBkLspW1h84VsJZFTsPPqMDA7g1Md7p0"
)
RFC7520_GCM_KEY = (
    '{"kty":"oct","kid":"18ec08e1-bfa9-4d95-b205-2b4dd1d4321d","use":"enc","alg":"A256GCMKW","k":"qC57l_uxcm7Nm3K-ct4GFjx8tM1'
    'U8CZ0NLBvdQstiS8"}'
)
RFC7520_5_7 = (
    "eyJhbGciOiJBMjU2R0NNS1ciLCJraWQiOiIxOGVjMDhlMS1iZmE5LTRkOTUtYjIwNS0yYjRkZDFkNDMyMWQiLCJ0YWciOiJrZlBkdVZRM1QzSDZ2bmV3dC0t"
    "a3N3IiwiaXYiOiJLa1lUMEdYXzJqSGxmcU5fIiwiZW5jIjoiQTEyOENCQy1IUzI1NiJ9.lJf3HbOApxMEBkCMOoTnnABxs_CvTWUmZQ2ElLvYNok.gz6NjyE"
    "FNm_vm8Gj6FwoFQ.Jf5p9-ZhJlJy_IQ_byKFmI0Ro7w7G1QiaZpI8OaiVgD8EqoDZHyFKFBupS8iaEeVIgMqWmsuJKuoVgzR3YfzoMd3GxEm3VxNhzWyWtZK"
    "X0gxKdy6HgLvqoGNbZCzLjqcpDiF8q2_62EVAbr2uSc2oaxFmFuIQHLcqAHxy51449xkjZ7ewzZaGV3eFqhpco8o4DijXaG5_7kp3h2cajRfDgymuxUbWgLq"
    "aeNQaJtvJmSMFuEOSAzw9Hdeb6yhdTynCRmu-kqtO5Dec4lT2OMZKpnxc_F1_4yDJFcqb5CiDSmA-psB2k0JtjxAj4UPI61oONK7zzFIu4gBfjJCndsZfdvG"
    "7h8wGjV98QhrKEnR7xKZ3KCr0_qR1B-gxpNk3xWU.DKW7jrb4WaRSNfbXVPlT5g"
)
RFC7520_WRAPPING_KEY = (
    '{"kty":"oct","kid":"81b20965-8332-43d9-a468-82160ad91ac8","use":"enc","alg":"A128KW","k":"GZy6sIZ6wl9NJOKB-jnmVQ"}'
)
RFC7520_5_8 = (
    "eyJhbGciOiJBMTI4S1ciLCJraWQiOiI4MWIyMDk2NS04MzMyLTQzZDktYTQ2OC04MjE2MGFkOTFhYzgiLCJlbmMiOiJBMTI4R0NNIn0.CBI6oDw8MydIx1IB"
    "ntf_lQcw2MmJKIQx.Qx0pmsDa8KnJc9Jo.AwliP-KmWgsZ37BvzCefNen6VTbRK3QMA4TkvRkH0tP1bTdhtFJgJxeVmJkLD61A1hnWGetdg11c9ADsnWgL56"
    "NyxwSYjU1ZEHcGkd3EkU0vjHi9gTlb90qSYFfeF0LwkcTtjbYKCsiNJQkcIp1yeM03OmuiYSoYJVSpf7ej6zaYcMv3WwdxDFl8REwOhNImk2Xld2JXq6BR53"
    "TSFkyT7PwVLuq-1GwtGHlQeg7gDT6xW0JqHDPn_H-puQsmthc9Zg0ojmJfqqFvETUxLAF-KjcBTS5dNy6egwkYtOt8EIHK-oEsKYtZRaa8Z7MOZ7UGxGIMvE"
    "mxrGCPeJa14slv2-gaqK0kEThkaSqdYw0FkQZF.ER7MWJZ1FBI_NKvn7Zb1Lw"
)
FRODO = (
    "You can trust us to stick with you through thick and thin\u2013to the bitter end. And you can trust us to keep any secret of "
    "yours\u2013closer than you keep it yourself. But you cannot trust us to let you face trouble alone, and go off without a word. "
    "We are your friends, Frodo."
).encode()


def b64(octets):
    return base64.urlsafe_b64encode(octets).rstrip(b"=").decode()


def unb64(text):
    return base64.urlsafe_b64decode(text + "=" * (-len(text) % 4))


def key_of(octets, **members):
    return {"kty": "oct", "k": b64(octets), **members}


def token_of(key, header, payload):
    """A token with HS256, by Python's hmac."""
    text = b64(header.encode()) + "." + b64(payload)
    return text + "." + b64(hmac.new(key, text.encode(), "sha256").digest())


def signed_by(payload, *keys):
    """A token in JSON form with a signature of each key, by Python's hmac. A key is its octets, or its octets and the bits of the hash."""
    signatures = []
    for key in keys:
        octets, bits = key if isinstance(key, tuple) else (key, 256)
        protected = b64(b'{"alg":"HS%d"}' % bits)
        made = hmac.new(octets, f"{protected}.{b64(payload)}".encode(), f"sha{bits}").digest()
        signatures.append({"protected": protected, "signature": b64(made)})
    return {"payload": b64(payload), "signatures": signatures}


FIRST = bytes(range(32))
SECOND = bytes(range(32, 64))
THIRD = bytes(range(64, 96))
A128 = key_of(bytes(16))


def with_random(octets):
    """The functions of the module get these random octets in place of those of the system."""

    def of(name, at):
        arguments = getattr(_library, name).argtypes
        function = _library.function(name + "_with_random", *arguments[:at], ctypes.c_char_p, ctypes.c_size_t, *arguments[at:])
        return lambda *given: function(*given[:at], octets, len(octets), *given[at:])

    return mock.patch.multiple(_library, generate=of("generate", 2), encrypt=of("encrypt", 5))


class Case(unittest.TestCase):
    def refused(self, number, name, function, *arguments, **options):
        with self.assertRaises(Refused) as caught:
            function(*arguments, **options)
        self.assertEqual((caught.exception.number, caught.exception.name), (number, name))
        self.assertEqual(str(caught.exception), f"{number} {name}")

    def blames(self, parent, number, function, *arguments, **options):
        with self.assertRaises(Refused) as caught:
            function(*arguments, **options)
        self.assertEqual(caught.exception.number, number, (function.__name__, arguments))
        self.assertIsInstance(caught.exception, parent, (function.__name__, arguments))


class Standards(Case):
    def test_rfc7515_appendix_a1_verifies(self):
        for key in (RFC7515_KEY, RFC7515_KEY.encode(), json.loads(RFC7515_KEY), [json.loads(RFC7515_KEY)], {"keys": [json.loads(RFC7515_KEY)]}):
            for token in (RFC7515_A1, RFC7515_A1.encode()):
                self.assertEqual(lakhdzeva.verify(key, token), RFC7515_CLAIMS)

    def test_rfc7515_appendix_a1_in_json(self):
        protected, payload, signature = RFC7515_A1.split(".")
        expected = {"payload": payload, "protected": protected, "signature": signature}
        text = lakhdzeva.format_signed(RFC7515_A1)
        self.assertEqual(text, json.dumps(expected, separators=(",", ":")))
        self.assertEqual(lakhdzeva.verify(RFC7515_KEY, expected), RFC7515_CLAIMS)
        self.assertEqual(lakhdzeva.format_signed(expected, compact=True), RFC7515_A1)

    def test_rfc7516_appendix_a3_decrypts(self):
        for token in (RFC7516_A3, RFC7516_A3.encode()):
            self.assertEqual(lakhdzeva.decrypt(RFC7516_KEY, token), LINE)

    def test_rfc7516_appendix_a3_is_encrypted(self):
        with with_random(RFC7516_RANDOM):
            self.assertEqual(lakhdzeva.encrypt(RFC7516_KEY, LINE, {"protected": {"enc": "A128CBC-HS256"}}), RFC7516_A3)

    def test_rfc7516_appendices_a4_and_a5_decrypt(self):
        for token in (RFC7516_A4, RFC7516_A5, json.loads(RFC7516_A4), json.loads(RFC7516_A5)):
            self.assertEqual(lakhdzeva.decrypt(RFC7516_KEY, token), LINE)

    def test_rfc7516_appendix_a5_in_another_order(self):
        object_ = json.loads(RFC7516_A5)
        self.assertEqual(json.loads(lakhdzeva.format_encrypted(dict(reversed(list(object_.items()))))), object_)

    def test_rfc7520_section_4_4(self):
        payload = lakhdzeva.verify(RFC7520_SIGNING_KEY, RFC7520_4_4)
        self.assertEqual(payload, unb64(RFC7520_4_4.split(".")[1]))
        kid = json.loads(RFC7520_SIGNING_KEY)["kid"]
        self.assertEqual(lakhdzeva.sign(RFC7520_SIGNING_KEY, payload, {"protected": {"kid": kid}}), RFC7520_4_4)

    def test_rfc7520_sections_5_7_and_5_8(self):
        self.assertEqual(lakhdzeva.decrypt(RFC7520_GCM_KEY, RFC7520_5_7), FRODO)
        self.assertEqual(lakhdzeva.decrypt(RFC7520_WRAPPING_KEY, RFC7520_5_8), FRODO)

    def test_signatures_of_hmac(self):
        for bits, name in ((256, "HS256"), (384, "HS384"), (512, "HS512")):
            for length in (0, 1, 2, 3, 64, 4095, 4096, 4097, 70001):
                key, payload = os.urandom(bits // 8), os.urandom(length)
                text = b64(b'{"alg":"%s"}' % name.encode()) + "." + b64(payload)
                expected = text + "." + b64(hmac.new(key, text.encode(), f"sha{bits}").digest())
                self.assertEqual(lakhdzeva.sign(key_of(key), payload), expected)
                self.assertEqual(lakhdzeva.verify(key_of(key), expected), payload)

    def test_thumbprints_of_hashlib(self):
        keys = [key_of(FIRST), key_of(SECOND, kid="b"), key_of(b"\xfb\xff")]
        for name, hash_ in (("S224", "sha224"), ("S256", "sha256"), ("S384", "sha384"), ("S512", "sha512")):
            expected = [b64(hashlib.new(hash_, ('{"k":"%s","kty":"oct"}' % key["k"]).encode()).digest()) for key in keys]
            self.assertEqual(lakhdzeva.thumbprints(keys, name), expected)
            self.assertEqual(lakhdzeva.thumbprints(keys, hash_), expected)
            self.assertEqual([lakhdzeva.thumbprint(key, name) for key in keys], expected)
            self.assertEqual(lakhdzeva.Keys(keys).thumbprints(hash_), expected)
        self.assertEqual(lakhdzeva.thumbprint(keys[0]), lakhdzeva.thumbprint(keys[0], "S256"))
        self.assertEqual(lakhdzeva.thumbprints([{"kty": "RSA"}, keys[1]]), [lakhdzeva.thumbprint(keys[1])])
        with self.assertRaises(ValueError):
            lakhdzeva.thumbprint({"keys": keys})


class Generated(Case):
    def test_keys_are_made(self):
        sizes = {"HS256": 32, "HS384": 48, "HS512": 64, "A128KW": 16, "A256GCMKW": 32, "A256CBC-HS512": 64, "A192GCM": 24}
        for name, size in sizes.items():
            key = lakhdzeva.generate({"alg": name, "kid": "\u00e9"})
            self.assertEqual((key["kty"], key["alg"], key["kid"], len(unb64(key["k"]))), ("oct", name, "\u00e9", size))
        self.assertEqual(lakhdzeva.generate(b'{"alg":"HS256"}')["key_ops"], ["sign", "verify"])

    def test_octets_of_a_key_are_the_random_ones(self):
        octets = os.urandom(4096)
        for size in (1, 64, 65, 4096):
            with with_random(octets):
                self.assertEqual(lakhdzeva.generate({"bytes": size}), key_of(octets[:size]))

    def test_two_keys_differ(self):
        self.assertNotEqual(lakhdzeva.generate('{"bytes":32}'), lakhdzeva.generate('{"bytes":32}'))

    def test_two_tokens_differ(self):
        self.assertNotEqual(lakhdzeva.encrypt(A128, b""), lakhdzeva.encrypt(A128, b""))


class Refusals(Case):
    def test_1_usage(self):
        self.refused(1, "Usage", lakhdzeva.thumbprint, A128, "S1")
        self.refused(1, "Usage", lakhdzeva.thumbprints, [A128], "sha1")

    def test_5_random(self):
        with with_random(b""):
            self.refused(5, "Random", lakhdzeva.generate, {"alg": "HS256"})
            self.refused(5, "Random", lakhdzeva.encrypt, A128, b"")
            # An earlier cause is reported first.
            self.refused(13, "NoAlgorithm", lakhdzeva.generate)

    def test_6_base64(self):
        self.refused(6, "Base64", lakhdzeva.verify, A128, "e30.!.AA")
        self.refused(6, "Base64", lakhdzeva.encrypt, A128, b"", {"aad": "A"})

    def test_7_json(self):
        for text in ("{", b"", b'{"\xff":1}', '{"a":1}x', '{"\ud800":1}', {"\ud800": 1}):
            self.refused(7, "Json", lakhdzeva.sign, text, b"")
            self.refused(7, "Json", lakhdzeva.generate, text)

    def test_8_number(self):
        for number in (1.5, 1e300, -0.0, 2**64, -(2**63) - 1):
            self.refused(8, "Number", lakhdzeva.sign, key_of(FIRST, extra=number), b"")
            self.refused(8, "Number", lakhdzeva.sign, key_of(FIRST), b"", {"protected": {"n": [number]}})

    def test_9_key(self):
        for key in ({"kty": "RSA"}, {}, [], {"keys": [1]}, "[]", key_of(b""), key_of(bytes(4097)), key_of(FIRST, kid=1)):
            self.refused(9, "Key", lakhdzeva.verify, key, RFC7515_A1)
        self.refused(9, "Key", lakhdzeva.sign, [key_of(FIRST), {"kty": "RSA"}], b"")
        self.refused(9, "Key", lakhdzeva.generate, {"k": "AA"})

    def test_10_form(self):
        for token in ("", "a.b", "a.b.c.d", {}, {"payload": 1, "signature": ""}):
            self.refused(10, "Form", lakhdzeva.verify, A128, token)
            self.refused(10, "Form", lakhdzeva.decrypt, A128, token)
        self.refused(10, "Form", lakhdzeva.sign, key_of(FIRST), b"", {"other": {}})

    def test_11_header(self):
        self.refused(11, "Header", lakhdzeva.verify, A128, "e30..AA")
        self.refused(11, "Header", lakhdzeva.encrypt, A128, b"", {"protected": {"enc": 1}})

    def test_12_unsupported(self):
        for header in ('{"alg":"none"}', '{"alg":"RS256"}', '{"alg":"HS256","crit":["exp"]}'):
            self.refused(12, "Unsupported", lakhdzeva.verify, key_of(FIRST), token_of(FIRST, header, b""))
        self.refused(12, "Unsupported", lakhdzeva.encrypt, A128, b"", {"protected": {"zip": "DEF"}})

    def test_13_no_algorithm(self):
        self.refused(13, "NoAlgorithm", lakhdzeva.generate)
        self.refused(13, "NoAlgorithm", lakhdzeva.sign, key_of(bytes(31)), b"")
        self.refused(13, "NoAlgorithm", lakhdzeva.encrypt, key_of(bytes(17)), b"")

    def test_14_key_does_not_fit(self):
        self.refused(14, "KeyDoesNotFit", lakhdzeva.sign, key_of(FIRST, use="enc"), b"")
        self.refused(14, "KeyDoesNotFit", lakhdzeva.sign, key_of(FIRST), b"", {"protected": {"alg": "HS512"}})
        self.refused(14, "KeyDoesNotFit", lakhdzeva.verify, A128, RFC7515_A1)

    def test_15_limit(self):
        self.refused(15, "Limit", lakhdzeva.generate, {"bytes": 4097})
        self.refused(15, "Limit", lakhdzeva.verify, [key_of(FIRST)] * 65, RFC7515_A1)
        password = key_of(b"word", alg="PBES2-HS256+A128KW")
        self.refused(15, "Limit", lakhdzeva.encrypt, password, b"", {"protected": {"p2c": 999}})

    def test_16_not_compact(self):
        self.refused(16, "NotCompact", lakhdzeva.sign, [key_of(FIRST), key_of(SECOND)], b"")
        self.refused(16, "NotCompact", lakhdzeva.sign, key_of(FIRST), b"", {"header": {"kid": "7"}})
        self.refused(16, "NotCompact", lakhdzeva.encrypt, [A128, A128], b"")
        self.refused(16, "NotCompact", lakhdzeva.format_encrypted, RFC7516_A4, compact=True)

    def test_17_not_opened(self):
        self.refused(17, "NotOpened", lakhdzeva.verify, key_of(FIRST), RFC7515_A1)
        self.refused(17, "NotOpened", lakhdzeva.decrypt, A128, RFC7516_A3)

    def test_a_refusal_is_a_value(self):
        names = (
            "Usage Read Write Memory Random Base64 Json Number Key Form Header Unsupported NoAlgorithm KeyDoesNotFit Limit NotCompact "
            "NotOpened".split()
        )
        self.assertEqual([Refused(number).name for number in range(1, 18)], names)
        self.assertEqual(Refused(18).name, "Unknown")
        for number, name in enumerate(names, 1):
            own = getattr(refusals, name)
            self.assertEqual((own.number, own.name, str(own()), repr(own())), (number, name, f"{number} {name}", f"Refused({number} {name})"))
            for parent, other in ((BadToken, Fault), (Fault, BadToken)):
                made = refusals.refused(number, parent)
                for it in (made, pickle.loads(pickle.dumps(made)), copy.copy(made), copy.deepcopy(made)):
                    self.assertIs(type(it), type(made))
                    self.assertIsInstance(it, own)
                    self.assertIsInstance(it, parent)
                    self.assertNotIsInstance(it, other)
                    self.assertEqual((it.number, it.name, str(it)), (number, name, f"{number} {name}"))
                    self.assertEqual(repr(it), f"{parent.__name__}({number} {name})")
        for made in (Refused(17), refusals.NotOpened(), refusals.refused(18, BadToken)):
            copied = pickle.loads(pickle.dumps(made))
            self.assertEqual((type(copied), copied.number, str(copied)), (type(made), made.number, str(made)))
        self.assertEqual(repr(refusals.refused(18, BadToken)), "BadToken(18 Unknown)")
        self.assertEqual(sorted(refusals.__all__), sorted([*names, "BadToken", "Fault", "Refused"]))
        self.assertFalse(issubclass(Refused, (MemoryError, OSError, ValueError)))

    def test_every_changed_token_is_refused(self):
        for function, key, token in (
            (lakhdzeva.verify, RFC7515_KEY, RFC7515_A1),
            (lakhdzeva.decrypt, RFC7516_KEY, RFC7516_A3),
            (lakhdzeva.decrypt, RFC7516_KEY, RFC7516_A5),
            (lakhdzeva.decrypt, RFC7520_WRAPPING_KEY, RFC7520_5_8),
        ):
            # The unprotected members of A.5 can be changed: RFC 7516 section 7.2.1.
            begin, end = (token.index('"encrypted_key"'), len(token)) if token[0] == "{" else (0, len(token))
            for place, other in itertools.product(range(begin, end), "AQ.\u00e9"):
                if token[place] != other:
                    changed = token[:place] + other + token[place + 1 :]
                    with self.assertRaises(Refused, msg=changed):
                        function(key, changed)
            for count in range(0, len(token), 5):
                with self.assertRaises(Refused):
                    function(key, token[:count])


class Contents(Case):
    PAYLOADS = [b"", b"\0", b"\xff\xfe", "\u00e9\n".encode(), bytes(range(256)), bytes(100000)]

    def test_signed_contents_come_back(self):
        for payload, compact in itertools.product(self.PAYLOADS, (True, False)):
            token = lakhdzeva.sign(key_of(FIRST), payload, compact=compact)
            self.assertIsInstance(token, str)
            self.assertEqual(token[0] == "{", not compact)
            verified = lakhdzeva.verify(key_of(FIRST), token)
            self.assertEqual((verified, type(verified)), (payload, bytes))

    def test_detached_payloads(self):
        for payload in self.PAYLOADS:
            whole = token_of(FIRST, '{"alg":"HS256"}', payload)
            detached = whole.replace("." + b64(payload) + ".", "..")
            self.assertEqual(lakhdzeva.sign_detached(key_of(FIRST), payload), detached)
            for kind in (bytes, bytearray, memoryview):
                self.assertIsNone(lakhdzeva.verify_detached(key_of(FIRST), detached, kind(payload)))
            self.refused(17, "NotOpened", lakhdzeva.verify_detached, key_of(FIRST), detached, payload + b"x")
            self.assertEqual(lakhdzeva.format_signed_detached(whole, compact=True), (detached, payload))
            self.assertEqual(lakhdzeva.format_signed(detached, compact=True, payload=payload), whole)
        self.refused(10, "Form", lakhdzeva.verify_detached, RFC7515_KEY, RFC7515_A1, RFC7515_CLAIMS)
        self.refused(17, "NotOpened", lakhdzeva.verify, key_of(FIRST), detached)

    def test_encrypted_contents_come_back(self):
        names = ("A128CBC-HS256", "A192CBC-HS384", "A256CBC-HS512", "A128GCM", "A192GCM", "A256GCM")
        for plaintext, name in itertools.product(self.PAYLOADS, names):
            template = {"protected": {"enc": name}}
            self.assertEqual(lakhdzeva.decrypt(A128, lakhdzeva.encrypt(A128, plaintext, template)), plaintext)
            token, ciphertext = lakhdzeva.encrypt_detached(A128, plaintext, template, compact=False)
            self.assertNotIn("ciphertext", json.loads(token))
            for kind in (bytes, bytearray, memoryview):
                opened = lakhdzeva.decrypt(A128, json.loads(token), ciphertext=kind(ciphertext))
                self.assertEqual((opened, type(opened)), (plaintext, bytes))
            self.refused(10, "Form", lakhdzeva.decrypt, A128, token)
            self.refused(17, "NotOpened", lakhdzeva.decrypt, A128, token, ciphertext=ciphertext + bytes(16))

    def test_a_detached_ciphertext_of_rfc7516_appendix_a3(self):
        parts = RFC7516_A3.split(".")
        ciphertext = unb64(parts[3])
        detached = ".".join(parts[:3] + ["", parts[4]])
        self.assertEqual(lakhdzeva.format_encrypted_detached(RFC7516_A3, compact=True), (detached, ciphertext))
        self.assertEqual(lakhdzeva.format_encrypted(detached, compact=True, ciphertext=ciphertext), RFC7516_A3)
        self.assertEqual(lakhdzeva.decrypt(RFC7516_KEY, detached, ciphertext=ciphertext), LINE)
        with with_random(RFC7516_RANDOM):
            made = lakhdzeva.encrypt_detached(RFC7516_KEY, LINE, {"protected": {"enc": "A128CBC-HS256"}})
        self.assertEqual(made, (detached, ciphertext))

    def test_a_part_of_a_memoryview(self):
        octets = bytearray(b"abcdefgh")
        token = lakhdzeva.sign(key_of(FIRST), memoryview(octets)[1:7:2])
        self.assertEqual(token, token_of(FIRST, '{"alg":"HS256"}', b"bdf"))

    def test_no_content_is_kept(self):
        content = bytearray(1 << 20)
        tracemalloc.start()
        for _ in range(2):
            before = tracemalloc.get_traced_memory()[0]
            token = lakhdzeva.sign_detached(RFC7515_KEY, content)
            lakhdzeva.verify_detached(RFC7515_KEY, token, content)
            lakhdzeva.verify_all_detached(RFC7515_KEY, 1, token, content)
            lakhdzeva.verify(RFC7515_KEY, lakhdzeva.format_signed(token, payload=content))
            token, ciphertext = lakhdzeva.encrypt_detached(A128, content)
            lakhdzeva.decrypt(A128, token, ciphertext=bytearray(ciphertext))
            lakhdzeva.decrypt(A128, lakhdzeva.format_encrypted(token, ciphertext=bytearray(ciphertext)))
            del token, ciphertext
        kept = tracemalloc.get_traced_memory()[0] - before
        tracemalloc.stop()
        self.assertLess(kept, len(content) // 2)


class Judged(Case):
    """Keys that are judged when they are read, and whose fault a refusal is."""

    ONE = key_of(FIRST, alg="HS256")
    # Texts of keys, and how they are refused.
    BROKEN = [
        ("", 7), ("a secret", 7), (json.dumps(ONE)[:-9], 7), (json.dumps(ONE) + "}", 7), (json.dumps({**ONE, "n": 1.5}), 8), ("{}", 9), ("[]", 9),
        ('{"kty":"RSA","n":"AQAB","e":"AQAB"}', 9), ('{"keys":[]}', 9), (json.dumps(ONE).replace('"k": "', '"k": "='), 9),
        (json.dumps({"keys": [ONE] * 65}), 15),
    ]

    def bad_tokens(self):
        """Tokens that are bad for any keys, and how they are refused."""
        many = {"payload": "", "signatures": [{"protected": b64(b'{"alg":"HS256"}'), "signature": "A" * 43}] * 257}
        return [
            (token_of(FIRST, '{"alg":"HS256"}', b"hi") + "=", 6), (token_of(FIRST, "{", b"hi"), 7), ('{"payload":', 7),
            (token_of(FIRST, '{"alg":"HS256","n":1.5}', b"hi"), 8), ("", 10), ("a.b", 10), ("{}", 10), (token_of(FIRST, "{}", b"hi"), 11),
            (token_of(FIRST, '{"alg":"none"}', b"hi"), 12), (token_of(FIRST, '{"alg":"RS256"}', b"hi"), 12), (json.dumps(many), 15),
            (token_of(SECOND, '{"alg":"HS256"}', b"hi"), 17),
        ]

    def test_keys_of_each_source(self):
        text = json.dumps(self.ONE, separators=(",", ":"))
        token = lakhdzeva.sign(self.ONE, b"hi")
        two = {"keys": [key_of(SECOND), self.ONE, {"kty": "RSA"}]}
        with tempfile.TemporaryDirectory() as folder:
            (Path(folder) / "keys").write_text(text)
            files = [lakhdzeva.Keys.from_file(Path(folder) / "keys"), lakhdzeva.Keys.from_file(f"{folder}/keys")]
            with self.assertRaises(OSError):
                lakhdzeva.Keys.from_file(f"{folder}/another")
        for keys in (*files, *map(lakhdzeva.Keys, (self.ONE, text, text.encode(), files[0]))):
            self.assertEqual((len(keys), bytes(keys), keys.thumbprints()), (1, text.encode(), [lakhdzeva.thumbprint(self.ONE)]))
            self.assertEqual(lakhdzeva.verify(keys, token), b"hi")
        for keys in map(lakhdzeva.Keys, (two, two["keys"], json.dumps(two))):
            self.assertEqual((len(keys), keys.thumbprints()), (2, lakhdzeva.thumbprints(two)))
            self.assertEqual(lakhdzeva.verify(keys, token), b"hi")

    def test_a_broken_file_is_named(self):
        with tempfile.TemporaryDirectory() as folder:
            name = f"{folder}/keys"
            for text, number in self.BROKEN:
                Path(name).write_text(text)
                for path in (name, Path(name)):
                    with self.assertRaises(Fault) as caught:
                        lakhdzeva.Keys.from_file(path)
                    for it in (caught.exception, pickle.loads(pickle.dumps(caught.exception)), copy.copy(caught.exception)):
                        self.assertEqual((str(it), it.number, it.file, type(it)), (f"{name}: {number} {it.name}", number, name, type(caught.exception)))
                with self.assertRaises(Fault) as caught:
                    lakhdzeva.Keys(text)
                self.assertEqual((str(caught.exception), caught.exception.file), (f"{number} {caught.exception.name}", None))

    def test_every_function_takes_keys(self):
        keys, wrap = lakhdzeva.Keys(self.ONE), lakhdzeva.Keys(A128)
        self.assertEqual(lakhdzeva.verify(keys, lakhdzeva.sign(keys, b"hi")), b"hi")
        lakhdzeva.verify_detached(keys, lakhdzeva.sign_detached(keys, b"hi"), b"hi")
        self.assertEqual(lakhdzeva.verify_all(keys, 1, lakhdzeva.sign(keys, b"hi")), b"hi")
        lakhdzeva.verify_all_detached(keys, 1, lakhdzeva.sign_detached(keys, b"hi"), b"hi")
        self.assertEqual(lakhdzeva.decrypt(wrap, lakhdzeva.encrypt(wrap, b"hi")), b"hi")
        token, ciphertext = lakhdzeva.encrypt_detached(wrap, b"hi")
        self.assertEqual(lakhdzeva.decrypt(wrap, token, ciphertext=ciphertext), b"hi")
        self.assertEqual(lakhdzeva.thumbprints(keys), [lakhdzeva.thumbprint(keys)])

    def test_broken_keys_are_a_fault(self):
        good = lakhdzeva.sign(self.ONE, b"hi")
        for text, number in self.BROKEN:
            self.blames(Fault, number, lakhdzeva.Keys, text)
            self.blames(Fault, number, lakhdzeva.thumbprints, text)
            self.blames(Fault, number, lakhdzeva.sign, text, b"")
            self.blames(Fault, number, lakhdzeva.encrypt, text, b"")
            # The keys are the fault, whatever the token is.
            for token in (good, *(token for token, _ in self.bad_tokens())):
                self.blames(Fault, number, lakhdzeva.verify, text, token)
                self.blames(Fault, number, lakhdzeva.verify_detached, text, token, b"")
                self.blames(Fault, number, lakhdzeva.verify_all, text, 1, token)
                self.blames(Fault, number, lakhdzeva.verify_all_detached, text, 1, token, b"")
                self.blames(Fault, number, lakhdzeva.decrypt, text, token)

    def test_a_bad_token_is_its_senders(self):
        for token, number in self.bad_tokens():
            for keys in (self.ONE, json.dumps(self.ONE), lakhdzeva.Keys(self.ONE), lakhdzeva.Keys([{"kty": "RSA"}, self.ONE])):
                self.blames(BadToken, number, lakhdzeva.verify, keys, token)
            if number not in (12, 17):
                self.blames(BadToken, number, lakhdzeva.format_signed, token)
        for keys in (self.ONE, lakhdzeva.Keys(self.ONE)):
            self.blames(BadToken, 14, lakhdzeva.verify, keys, token_of(FIRST, '{"alg":"HS512"}', b"hi"))
            self.blames(Fault, 9, lakhdzeva.verify_all, keys, 2, lakhdzeva.sign(keys, b"hi"))
        for keys in (RFC7516_KEY, lakhdzeva.Keys(RFC7516_KEY)):
            for token, number in (("", 10), (RFC7516_A3 + "=", 6), (RFC7516_A3[:-4] + "AAAA", 17), (RFC7515_A1, 10)):
                self.blames(BadToken, number, lakhdzeva.decrypt, keys, token)
        self.blames(BadToken, 16, lakhdzeva.format_encrypted, RFC7516_A4, compact=True)

    def test_what_makes_tokens_is_the_callers(self):
        keys = lakhdzeva.Keys(self.ONE)
        for template, number in (("{", 7), ({"protected": {"n": 1.5}}, 8), ({"other": {}}, 10), ({"protected": {"alg": 1}}, 11), ({"protected": {"alg": "none"}}, 12)):
            self.blames(Fault, number, lakhdzeva.sign, keys, b"", template)
        self.blames(Fault, 14, lakhdzeva.encrypt, keys, b"")
        self.blames(Fault, 13, lakhdzeva.generate)
        self.blames(Fault, 16, lakhdzeva.sign, [self.ONE, self.ONE], b"")

    def test_keys_that_verify_nothing(self):
        for key in (A128, key_of(FIRST, use="enc"), key_of(FIRST, alg="A256KW"), key_of(FIRST, key_ops=["sign"]), key_of(bytes(31))):
            keys = lakhdzeva.Keys(key)
            self.assertFalse(keys.can_verify)
            for it in (key, keys):
                self.blames(Fault, 14, lakhdzeva.verify, it, RFC7515_A1)
        for key in (self.ONE, key_of(bytes(48), alg="HS384"), key_of(bytes(64), alg="HS512"), key_of(FIRST, key_ops=["verify"]), [A128, key_of(FIRST)]):
            self.assertTrue(lakhdzeva.Keys(key).can_verify)

    def test_a_refused_allocation_is_a_fault(self):
        for name in ("verify", "verify_all", "decrypt", "format_signed"):
            with mock.patch.object(_library, name, lambda *_: 4):
                for function, arguments in (
                    (lakhdzeva.verify, (self.ONE, RFC7515_A1)), (lakhdzeva.verify_all, (self.ONE, 1, RFC7515_A1)),
                    (lakhdzeva.decrypt, (A128, RFC7516_A3)), (lakhdzeva.format_signed, (RFC7515_A1,)),
                ):
                    if function.__name__ == name:
                        self.blames(Fault, 4, function, *arguments)

    def test_a_secret_of_octets(self):
        keys = lakhdzeva.Keys.from_secret(FIRST, "HS256", "partner")
        self.assertEqual(json.loads(bytes(keys)), key_of(FIRST, alg="HS256", kid="partner"))
        self.assertEqual(lakhdzeva.verify(keys, token_of(FIRST, '{"alg":"HS256"}', b"hi")), b"hi")
        for secret, alg in ((bytes(16), "A128KW"), (bytes(32), "A256GCM"), (b"a password", "PBES2-HS256+A128KW"), (bytes(64), "HS512")):
            self.assertEqual(len(lakhdzeva.Keys.from_secret(secret, alg)), 1)
        for secret, alg in ((bytes(31), "HS256"), (bytes(32), "HS512"), (b"short", "HS256"), (bytes(15), "A128KW"), (bytes(33), "A256GCM")):
            self.blames(Fault, 14, lakhdzeva.Keys.from_secret, secret, alg)
        self.blames(Fault, 9, lakhdzeva.Keys.from_secret, b"", "HS256")
        for alg in ("RS256", "none", "", "HS257", "hs256"):
            self.blames(Fault, 14, lakhdzeva.Keys.from_secret, bytes(32), alg)
        with self.assertRaisesRegex(TypeError, "must be octets, not str"):
            lakhdzeva.Keys.from_secret("a secret", "HS256")
        with self.assertRaisesRegex(TypeError, "alg must be a str"):
            lakhdzeva.Keys.from_secret(FIRST, None)

    def test_nothing_secret_is_printed(self):
        keys = lakhdzeva.Keys([self.ONE, key_of(SECOND)])
        for text in (repr(keys), str(keys), f"{keys}", f"{keys!r}", "%s %r" % (keys, keys), repr([keys]), repr({"keys": keys})):
            self.assertIn("<lakhdzeva.Keys: 2>", text)
        with self.assertRaises(TypeError):
            vars(keys)
        self.assertFalse(hasattr(keys, "__dict__"))

    def test_keys_are_copied(self):
        keys = lakhdzeva.Keys(self.ONE)
        for copied in (copy.copy(keys), copy.deepcopy(keys), copy.deepcopy([keys])[0], copy.deepcopy({"keys": keys})["keys"]):
            self.assertEqual((bytes(copied), copied.thumbprints(), copied.can_verify), (bytes(keys), keys.thumbprints(), True))

    def test_keys_are_not_pickled(self):
        class Derived(lakhdzeva.Keys):
            pass

        keys = lakhdzeva.Keys(self.ONE)
        refused = self.assertRaisesRegex(TypeError, "Keys hold secrets and cannot be pickled")
        for value in (keys, Derived(self.ONE), [keys], {"keys": keys}, functools.partial(print, keys)):
            for protocol in range(pickle.HIGHEST_PROTOCOL + 1):
                for pickler in (pickle.Pickler, pickle._Pickler):
                    written = io.BytesIO()
                    with refused:
                        pickler(written, protocol).dump(value)
                    self.assertNotIn(self.ONE["k"].encode(), written.getvalue())
        for protocol in range(pickle.HIGHEST_PROTOCOL + 1):
            with refused:
                keys.__reduce_ex__(protocol)
        for method in (keys.__reduce__, keys.__getstate__):
            with refused:
                method()
        # A worker in another process gets its arguments by pickle.
        with refused:
            multiprocessing.reduction.ForkingPickler.dumps(keys)

    def test_a_derived_class_of_keys(self):
        class Other(lakhdzeva.Keys):
            def __bytes__(self):
                raise Lied

            def __getattribute__(self, name):
                raise Lied(name)

        made = Other.__new__(Other)
        for name in lakhdzeva.Keys.__slots__:
            lakhdzeva.Keys.__dict__[name].__set__(made, getattr(lakhdzeva.Keys(self.ONE), name))
        self.assertEqual(lakhdzeva.verify(made, token_of(FIRST, '{"alg":"HS256"}', b"hi")), b"hi")
        self.blames(BadToken, 14, lakhdzeva.verify, made, token_of(FIRST, '{"alg":"HS512"}', b"hi"))

    # What a good key may do: to sign, verify, encrypt and decrypt.
    USES = [
        (key_of(FIRST), "sved"),
        (key_of(FIRST, alg="HS256"), "sv"),
        (key_of(FIRST, alg="HS256", key_ops=["sign"]), "s"),
        (key_of(FIRST, alg="HS256", key_ops=["verify"]), "v"),
        (key_of(bytes(31), alg="HS256"), ""),
        (key_of(FIRST, use="sig"), "sv"),
        (key_of(FIRST, use="enc"), "ed"),
        (key_of(bytes(16), alg="A128KW", key_ops=["wrapKey"]), "e"),
        (key_of(bytes(16), alg="A128KW", key_ops=["unwrapKey"]), "d"),
        (key_of(bytes(32), alg="dir", key_ops=["decrypt"]), "d"),
        (key_of(bytes(32), alg="A256GCM", key_ops=["encrypt"]), "e"),
        (key_of(b"word", alg="PBES2-HS256+A128KW", key_ops=["deriveKey"]), "ed"),
        (key_of(b"word", alg="RS256"), ""),
        (key_of(b"w", key_ops=["sign", "verify"]), ""),
    ]

    def test_what_keys_may_do(self):
        rows = [(key, lakhdzeva.KeyUses(True, *(it in uses for it in "sved"))) for key, uses in self.USES]
        for key, uses in rows:
            self.assertEqual(lakhdzeva.judge_keys(key), [uses])
            keys = lakhdzeva.Keys(key)
            self.assertEqual((keys.can_sign, keys.can_verify, keys.can_encrypt, keys.can_decrypt), tuple(uses)[1:])
        bad, none = {"kty": "RSA"}, lakhdzeva.KeyUses(False, False, False, False, False)
        keys = lakhdzeva.Keys([bad, *(key for key, _ in rows), bad])
        self.assertEqual(keys.uses, [none, *(uses for _, uses in rows), none])
        self.assertEqual(keys.uses, lakhdzeva.judge_keys(keys))
        self.assertEqual(len(keys), len(rows))

    def test_keys_that_cannot_be_judged(self):
        for number, text in ((7, "{"), (8, '{"kty":"oct","k":"AA","n":1.5}'), (9, "{}"), (9, '{"keys":[]}'), (9, '{"keys":[{}]}')):
            self.blames(Fault, number, lakhdzeva.judge_keys, text)
        self.blames(Fault, 15, lakhdzeva.judge_keys, [key_of(FIRST)] * 65)
        self.assertEqual(len(lakhdzeva.judge_keys([key_of(FIRST)] + [{}] * 63)), 64)

    def test_what_may_do_something_does(self):
        """A key may sign or encrypt if a call by some algorithm does."""
        for key, uses in self.USES:
            self.assertEqual(self.some_works(lakhdzeva.sign, key, [{"alg": it} for it in ("HS256", "HS384", "HS512")]), "s" in uses, key)
            pairs = [{"alg": alg, "enc": enc} for alg in ("dir", "A128KW", "A256KW", "PBES2-HS256+A128KW") for enc in ("A128GCM", "A256GCM")]
            self.assertEqual(self.some_works(lakhdzeva.encrypt, key, pairs), "e" in uses, key)

    def some_works(self, function, key, headers):
        for header in headers:
            try:
                function(key, b"", {"protected": header})
                return True
            except Fault:
                pass
        return False

    def test_a_list_of_thumbprints_is_a_copy(self):
        keys = lakhdzeva.Keys(self.ONE)
        keys.thumbprints().clear()
        self.assertEqual(len(keys.thumbprints()), 1)


class Sets(Case):
    def test_one_key_of_a_set_verifies_or_all_do(self):
        keys = [key_of(FIRST), key_of(SECOND)]
        token = lakhdzeva.sign(keys, b"text", compact=False)
        expected = []
        for octets in (FIRST, SECOND):
            protected, _, signature = token_of(octets, '{"alg":"HS256"}', b"text").split(".")
            expected.append({"protected": protected, "signature": signature})
        self.assertEqual(json.loads(token), {"payload": b64(b"text"), "signatures": expected})
        for set_ in (keys, {"keys": keys}, json.dumps({"keys": keys}), keys[::-1]):
            self.assertEqual(lakhdzeva.verify(set_, token, all=True), b"text")
        for set_ in (keys[0], keys[1], [key_of(THIRD), keys[1]], [{"kty": "RSA"}, keys[0]]):
            self.assertEqual(lakhdzeva.verify(set_, token), b"text")
        self.refused(17, "NotOpened", lakhdzeva.verify, [key_of(THIRD), keys[1]], token, all=True)
        self.refused(17, "NotOpened", lakhdzeva.verify, key_of(THIRD), token)
        self.assertEqual(lakhdzeva.verify([{"kty": "RSA"}, keys[0]], token, all=True), b"text")

    def test_all_with_a_detached_payload(self):
        keys = [key_of(FIRST), key_of(SECOND)]
        token = lakhdzeva.sign_detached(keys, b"text", compact=False)
        self.assertIsNone(lakhdzeva.verify_detached(keys, token, b"text", all=True))
        self.refused(17, "NotOpened", lakhdzeva.verify_detached, keys + [key_of(THIRD)], token, b"text", all=True)
        self.assertIsNone(lakhdzeva.verify_detached(keys + [key_of(THIRD)], token, b"text"))

    def test_each_key_of_a_set_decrypts(self):
        keys = [A128, key_of(FIRST, alg="A256GCMKW"), key_of(b"a password", alg="PBES2-HS512+A256KW")]
        token = lakhdzeva.encrypt(keys, b"text", {"protected": {"p2c": 1000}}, compact=False)
        self.assertEqual(len(json.loads(token)["recipients"]), 3)
        for key in keys:
            # The first key has no `alg`, so it is tried as a password too.
            self.assertEqual(lakhdzeva.decrypt(key, token, iterations=1000), b"text")
        self.refused(14, "KeyDoesNotFit", lakhdzeva.decrypt, key_of(bytes(17), alg="HS256"), token)

    def test_a_text_of_json_that_is_not_ascii(self):
        token = lakhdzeva.sign(key_of(FIRST), b"", {"header": {"kid": "\u00e9\U0001f600"}}, compact=False)
        self.assertEqual(json.loads(token)["header"], {"kid": "\u00e9\U0001f600"})
        self.assertIn("\u00e9\U0001f600", token)


class Signers(Case):
    """verify_all: each of so many keys signed. The signatures are made by Python's hmac."""

    TEXT = b"text"

    def opens(self, keys, signers, token):
        self.assertEqual(lakhdzeva.verify_all(keys, signers, token), self.TEXT)
        apart = {name: value for name, value in token.items() if name != "payload"}
        self.assertIsNone(lakhdzeva.verify_all_detached(keys, signers, apart, self.TEXT))

    def refuses(self, number, name, keys, signers, token):
        self.refused(number, name, lakhdzeva.verify_all, keys, signers, token)
        apart = {name: value for name, value in token.items() if name != "payload"}
        self.refused(number, name, lakhdzeva.verify_all_detached, keys, signers, apart, self.TEXT)

    def test_each_key_made_a_signature(self):
        all_three = [FIRST, SECOND, THIRD]
        for count in (1, 2, 3):
            for octets in itertools.permutations(all_three, count):
                keys = [key_of(it) for it in octets]
                # The signatures of strangers do not matter, nor does the order.
                self.opens(keys, count, signed_by(self.TEXT, *all_three))
                self.opens({"keys": keys}, count, signed_by(self.TEXT, *octets))
                for missing in octets:
                    others = [it for it in (*octets, bytes(40)) if it != missing]
                    self.refuses(17, "NotOpened", keys, count, signed_by(self.TEXT, *others))

    def test_another_payload(self):
        token = signed_by(self.TEXT, FIRST, SECOND)
        token.pop("payload")
        self.refused(17, "NotOpened", lakhdzeva.verify_all_detached, [key_of(FIRST), key_of(SECOND)], 2, token, b"other")

    def test_another_number_of_keys(self):
        token = signed_by(self.TEXT, FIRST, SECOND)
        keys = [key_of(FIRST), key_of(SECOND)]
        for signers in (0, 1, 3, 64, 65, 2**32 + 2, 2**63, 2**64 - 1, 2**64 + 2, 10**100):
            self.refuses(9, "Key", keys, signers, token)
        self.refuses(9, "Key", keys[0], 2, token)
        self.opens(keys, 2, token)

    def test_a_bad_key_in_the_set(self):
        token = signed_by(self.TEXT, FIRST)
        damaged = key_of(SECOND)
        damaged["k"] += "="
        for bad in ({"kty": "RSA", "n": "AQAB", "e": "AQAB"}, damaged, {"kty": "oct"}, key_of(SECOND, kid=7), {"keys": [key_of(SECOND)]}):
            # By itself `all` passes over it.
            self.assertEqual(lakhdzeva.verify([key_of(FIRST), bad], token, all=True), self.TEXT)
            for signers in (1, 2):
                self.refuses(9, "Key", [key_of(FIRST), bad], signers, token)
                self.refuses(9, "Key", [bad, key_of(FIRST)], signers, token)
        self.refuses(15, "Limit", [key_of(FIRST)] * 65, 65, token)

    def test_keys_that_sign_alike(self):
        long, longer = bytes(range(100)), bytes(range(200))
        rows = [
            (FIRST, FIRST),
            (FIRST, FIRST + b"\0"),
            (FIRST, FIRST + bytes(96)),
            (bytes(1), bytes(2)),
            # 64 octets are a whole block of SHA-256, and half a block of the others.
            (bytes(range(64)), bytes(range(64)) + b"\0"),
            (bytes(range(127)), bytes(range(127)) + b"\0"),
            # A key that is longer than the block is hashed: above 64 octets for SHA-256, and above 128 for the others.
            (long, hashlib.sha256(long).digest()),
            (long, hashlib.sha256(long).digest() + b"\0"),
            (longer, hashlib.sha256(longer).digest()),
            (longer, hashlib.sha384(longer).digest()),
            (longer, hashlib.sha512(longer).digest()),
            (longer, hashlib.sha512(longer).digest() + bytes(5)),
        ]
        for one, other in rows:
            self.assertTrue(any(hmac.digest(one, self.TEXT, it) == hmac.digest(other, self.TEXT, it) for it in ("sha256", "sha384", "sha512")))
            token = signed_by(self.TEXT, *((octets, bits) for octets in (one, other, SECOND) for bits in (256, 384, 512)))
            for first, second in ((one, other), (other, one)):
                self.refuses(9, "Key", [key_of(first), key_of(second)], 2, token)
                self.refuses(9, "Key", [key_of(first, alg="HS256"), key_of(second, alg="HS512", kid="b")], 2, token)
                self.refuses(9, "Key", [key_of(first), key_of(SECOND), key_of(second)], 3, token)

    def test_keys_that_nearly_sign_alike(self):
        block, long = bytes(range(1, 65)), bytes(range(100))
        wide = bytes(range(1, 129))
        rows = [
            (FIRST, b"\0" + FIRST),
            (FIRST, FIRST + b"\1"),
            # A key of one block is not hashed.
            (block, hashlib.sha256(block).digest()),
            (wide, hashlib.sha384(wide).digest()),
            (wide, hashlib.sha512(wide).digest()),
            (long, hashlib.sha384(long).digest()),
            (long, hashlib.sha512(long).digest()),
            # Behind the block a zero octet counts.
            (wide, wide + b"\0"),
            (bytes(range(129)), bytes(range(129)) + b"\0"),
        ]
        for one, other in rows:
            self.assertFalse(any(hmac.digest(one, self.TEXT, it) == hmac.digest(other, self.TEXT, it) for it in ("sha256", "sha384", "sha512")))
            for keys in ([key_of(one), key_of(other)], [key_of(other), key_of(one)]):
                self.opens(keys, 2, signed_by(self.TEXT, one, other))
                self.refuses(17, "NotOpened", keys, 2, signed_by(self.TEXT, one))
                self.refuses(17, "NotOpened", keys, 2, signed_by(self.TEXT, other))

    def test_64_signers(self):
        octets = [hashlib.sha256(b"%d" % number).digest() for number in range(64)]
        keys = [key_of(it) for it in octets]
        self.opens(keys, 64, signed_by(self.TEXT, *octets))
        self.refuses(17, "NotOpened", keys, 64, signed_by(self.TEXT, *octets[:-1]))
        self.refuses(9, "Key", keys[:-1] + keys[:1], 64, signed_by(self.TEXT, *octets))

    def test_the_order_of_the_refusals(self):
        self.refused(7, "Json", lakhdzeva.verify_all, "{", 5, "a.b")
        self.refused(8, "Number", lakhdzeva.verify_all, key_of(FIRST, n=1.5), 5, "a.b")
        self.refused(9, "Key", lakhdzeva.verify_all, key_of(FIRST), 2, "a.b")
        self.refused(9, "Key", lakhdzeva.verify_all, [key_of(FIRST)] * 2, 2, "a.b")
        self.refused(10, "Form", lakhdzeva.verify_all, key_of(FIRST), 1, "a.b")
        self.refused(10, "Form", lakhdzeva.verify_all_detached, key_of(FIRST), 1, RFC7515_A1, b"")
        self.refused(12, "Unsupported", lakhdzeva.verify_all, key_of(FIRST), 1, token_of(FIRST, '{"alg":"none"}', b""))

    def test_signers_are_a_number(self):
        for other in (None, "2", 2.0, True, False, [2], b"2"):
            with self.assertRaisesRegex(TypeError, "signers must be an int"):
                lakhdzeva.verify_all(key_of(FIRST), other, RFC7515_A1)
        for other in (-1, -(2**64)):
            with self.assertRaisesRegex(ValueError, "signers must not be negative"):
                lakhdzeva.verify_all(key_of(FIRST), other, RFC7515_A1)


class Passwords(Case):
    """The iterations that a call may make."""

    WORD = key_of(b"word")

    def token(self, keys, iterations):
        template = {"protected": {"alg": "PBES2-HS256+A128KW", "enc": "A128GCM", "p2c": iterations}}
        return lakhdzeva.encrypt(keys, b"text", template, compact=False)

    def check(self, keys, token, needed):
        """The call makes so many iterations in all, and is refused if it may make one less."""
        self.assertEqual(lakhdzeva.decrypt(keys, token, iterations=needed), b"text")
        self.assertEqual(lakhdzeva.decrypt(keys, token, iterations=2**64 + needed), b"text")
        for fewer in {0, 1, needed - 1}:
            self.refused(15, "Limit", lakhdzeva.decrypt, keys, token, iterations=fewer)
        self.refused(15, "Limit", lakhdzeva.decrypt, keys, token)

    def test_no_password_is_tried_unless_a_number_says_so(self):
        self.check(self.WORD, self.token(self.WORD, 1000), 1000)
        self.check(key_of(b"word", alg="PBES2-HS256+A128KW"), self.token(self.WORD, 1234), 1234)

    def test_each_recipient_counts_with_each_key_that_fits(self):
        two = [self.WORD, key_of(b"other")]
        self.check(self.WORD, self.token(two, 1000), 2000)
        self.check(two, self.token(self.WORD, 1000), 2000)
        self.check(two, self.token(two, 1500), 6000)
        # Every key without `alg` is a password, and one with another `alg` costs nothing.
        self.check([A128, self.WORD], self.token(self.WORD, 1000), 2000)
        self.check([key_of(bytes(16), alg="A128KW"), key_of(FIRST, alg="HS256"), self.WORD], self.token(self.WORD, 1000), 1000)

    def test_a_key_without_password_needs_no_number(self):
        self.assertEqual(lakhdzeva.decrypt(RFC7516_KEY, RFC7516_A3, iterations=0), LINE)

    def test_a_stranger_asks_for_the_most(self):
        header = {"alg": "PBES2-HS256+A128KW", "p2s": b64(bytes(8)), "p2c": 2000000, "enc": "A128GCM"}
        parts = [json.dumps(header, separators=(",", ":")).encode(), bytes(24), bytes(12), b"", bytes(16)]
        token = ".".join(b64(it) for it in parts)
        before = time.process_time()
        for iterations in ({}, {"iterations": 0}, {"iterations": 600000}, {"iterations": 1999999}):
            self.refused(15, "Limit", lakhdzeva.decrypt, A128, token, **iterations)
            self.refused(15, "Limit", lakhdzeva.decrypt, [A128] * 64, token, **iterations)
        # A pair of one recipient and one of the 64 keys would take a second or more.
        self.assertLess(time.process_time() - before, 0.5)
        self.refused(15, "Limit", lakhdzeva.decrypt, [A128] * 64, token, iterations=2**64 - 1)

    def test_iterations_are_a_number(self):
        for other in (None, "0", 0.0, True, False, [0], b"0"):
            with self.assertRaisesRegex(TypeError, "iterations must be an int"):
                lakhdzeva.decrypt(RFC7516_KEY, RFC7516_A3, iterations=other)
        for other in (-1, -(2**64) + 5):
            with self.assertRaisesRegex(ValueError, "iterations must not be negative"):
                lakhdzeva.decrypt(RFC7516_KEY, RFC7516_A3, iterations=other)


class Lied(Exception):
    """A method of a lying value was called."""


def lies(kind, answers):
    """A class derived from this one. Each of its methods raises Lied, or gives the wrong answer that `answers` has for its name."""

    def method(name):
        def raising(*_, **__):
            raise Lied(name)

        return answers.get(name, raising)

    # Without these no value can be made, and Python itself needs the last two.
    kept = {"__new__", "__init__", "__class__", "__init_subclass__", "__subclasshook__", "__doc__", "__dict__", "__del__"}
    names = (set(dir(kind)) | {"__bytes__", "__buffer__", "__bool__", "__index__", "__int__", "__float__", "__iter__", "__len__"}) - kept
    members = {name: method(name) for name in names}
    members["__class__"] = property(lambda self: float)
    return type(f"Lying{kind.__name__}", (kind,), members)


WRONG = {
    "__len__": lambda self: 4000,
    "__bool__": lambda self: not self.__dict__.setdefault("asked", []).append(1) and len(self.__dict__["asked"]) % 2 == 1,
    "__index__": lambda self: 2**40,
    "__int__": lambda self: 2**40,
    "__float__": lambda self: 0.5,
    "__bytes__": lambda self: b"lie" * 1000,
    "__str__": lambda self: "lie",
    "__repr__": lambda self: "lie",
    "__iter__": lambda self: iter(["lie"] * 1000),
    "__getitem__": lambda self, _: b"lie" * 1000,
    "__contains__": lambda self, _: True,
    "__eq__": lambda self, _: True,
    "__hash__": lambda self: 7,
    "__buffer__": lambda self, _: memoryview(b"lie" * 1000),
    "encode": lambda self, *_: b"lie" * 1000,
    "items": lambda self: [("kty", "oct"), ("k", "AA")],
    "keys": lambda self: ["kty", "k"],
    "values": lambda self: ["oct", "AA"],
    "copy": lambda self: {},
    "__getattribute__": lambda self, name: object.__getattribute__(self, name),
    "__setattr__": lambda self, name, value: object.__setattr__(self, name, value),
}
# One class of each kind whose methods all raise, and one whose methods answer wrongly.
LYING = {kind: [lies(kind, {"__hash__": kind.__hash__} if kind.__hash__ else {}), lies(kind, WRONG)] for kind in (bytes, bytearray, str, dict, list, tuple, int, float)}


def lying(value, way):
    """The same value in lying classes, with all that is in it."""
    kind = type(value)
    if kind not in LYING:
        return value
    made = LYING[kind][way]
    if kind is dict:
        copied = made()
        for name, member in value.items():
            # The class's own __setitem__ lies, and with equal hashes all names would be one.
            dict.__setitem__(copied, name, lying(member, way))
        return copied
    if kind in (list, tuple):
        return made([lying(member, way) for member in value])
    return made(value)


class Lies(Case):
    """Values of classes of their own, each of whose methods raises or answers wrongly: the answer is that of the honest value."""

    KEY = {"kty": "oct", "k": b64(FIRST), "list": [1, -2, {"a": "\u00e9"}], "yes": True, "no": False, "none": None}
    PAYLOAD = b"a payload of some octets"

    def rows(self):
        """For each function its arguments, with the values that are honest: all that it takes."""
        key, payload = self.KEY, self.PAYLOAD
        signed = json.loads(json.dumps(signed_by(payload, FIRST)))
        apart = {name: value for name, value in signed.items() if name != "payload"}
        compact = token_of(FIRST, '{"alg":"HS256"}', payload)
        a5 = json.loads(RFC7516_A5)
        a5_apart = {name: value for name, value in a5.items() if name != "ciphertext"}
        ciphertext = unb64(a5["ciphertext"])
        keys = [key, json.dumps(key), json.dumps(key).encode(), [key], {"keys": [key]}]
        wrap = json.loads(RFC7516_KEY)
        wraps = [wrap, RFC7516_KEY, RFC7516_KEY.encode(), [wrap], {"keys": [wrap]}]
        template = {"protected": {"kid": "7", "n": [2**63, {"x": "y"}]}}
        templates = [template, json.dumps(template), json.dumps(template).encode(), None]
        contents = [payload, bytearray(payload), memoryview(payload)]
        ciphertexts = [ciphertext, bytearray(ciphertext), memoryview(ciphertext)]
        flags = [True, False]
        size = {"bytes": 20, "kid": "7"}
        return [
            (lakhdzeva.generate, {"template": [size, json.dumps(size), json.dumps(size).encode()]}),
            (lakhdzeva.thumbprints, {"keys": keys, "hash": ["S256", "sha512"]}),
            (lakhdzeva.thumbprint, {"key": keys, "hash": ["S256", "S512"]}),
            (lakhdzeva.judge_keys, {"keys": keys}),
            (self.of_keys, {"keys": keys}),
            (self.of_secret, {"secret": contents}),
            (lakhdzeva.sign, {"keys": keys, "payload": contents, "template": templates, "compact": flags}),
            (lakhdzeva.sign_detached, {"keys": keys, "payload": contents, "template": templates, "compact": flags}),
            (lakhdzeva.verify, {"keys": keys, "token": [signed, compact, compact.encode()], "all": flags}),
            (lakhdzeva.verify_detached, {"keys": keys, "token": [apart], "payload": contents, "all": flags}),
            (lakhdzeva.verify_signer, {"keys": keys, "token": [signed, compact, compact.encode()]}),
            (lakhdzeva.verify_all, {"keys": keys, "signers": [1, 2], "token": [signed, compact, compact.encode()]}),
            (lakhdzeva.verify_all_detached, {"keys": keys, "signers": [1, 2], "token": [apart], "payload": contents}),
            (lakhdzeva.encrypt, {"keys": wraps, "plaintext": contents, "template": templates, "compact": flags}),
            (lakhdzeva.encrypt_detached, {"keys": wraps, "plaintext": contents, "template": templates, "compact": flags}),
            (lakhdzeva.decrypt, {"keys": wraps, "token": [a5, RFC7516_A3, RFC7516_A3.encode()], "iterations": [0, 5, 2**70]}),
            (lakhdzeva.decrypt, {"keys": wraps, "token": [a5_apart], "ciphertext": ciphertexts, "iterations": [0]}),
            (lakhdzeva.format_signed, {"token": [signed, compact, compact.encode()], "compact": flags}),
            (lakhdzeva.format_signed, {"token": [apart], "compact": flags, "payload": contents}),
            (lakhdzeva.format_signed_detached, {"token": [signed, compact, compact.encode()], "compact": flags}),
            (lakhdzeva.format_signed_detached, {"token": [apart], "compact": flags, "payload": contents}),
            (lakhdzeva.format_encrypted, {"token": [a5, RFC7516_A3, RFC7516_A3.encode()], "compact": flags}),
            (lakhdzeva.format_encrypted, {"token": [a5_apart], "compact": flags, "ciphertext": ciphertexts}),
            (lakhdzeva.format_encrypted_detached, {"token": [a5, RFC7516_A3, RFC7516_A3.encode()], "compact": flags}),
            (lakhdzeva.format_encrypted_detached, {"token": [a5_apart], "compact": flags, "ciphertext": ciphertexts}),
        ]

    def of_keys(self, keys):
        return bytes(lakhdzeva.Keys(keys))

    def of_secret(self, secret):
        return bytes(lakhdzeva.Keys.from_secret(secret, "PBES2-HS256+A128KW", "7"))

    def answer(self, function, arguments):
        """What the function gives, or its refusal, with random octets that are always the same."""
        with with_random(bytes(range(256)) * 20):
            try:
                return function(**arguments)
            except Refused as refused:
                return str(refused)

    def test_each_argument_of_each_function(self):
        tried = 0
        for function, arguments in self.rows():
            first = {name: values[0] for name, values in arguments.items()}
            for name, values in arguments.items():
                for value, way in itertools.product(values, (0, 1)):
                    if type(value) in LYING:
                        honest = self.answer(function, {**first, name: value})
                        self.assertEqual(self.answer(function, {**first, name: lying(value, way)}), honest, (function.__name__, name, way))
                        tried += 1
        self.assertGreater(tried, 150)

    def test_all_arguments_at_once(self):
        for function, arguments in self.rows():
            for values in itertools.islice(itertools.product(*arguments.values()), 0, None, 7):
                honest = dict(zip(arguments, values))
                for way in (0, 1):
                    made = {name: lying(value, way) for name, value in honest.items()}
                    self.assertEqual(self.answer(function, made), self.answer(function, honest), (function.__name__, way))

    def test_what_is_no_flag(self):
        class Answering:
            def __bool__(self):
                raise Lied

            __index__ = __len__ = __int__ = __bool__

        token, a3 = RFC7515_A1, RFC7516_A3
        for other in (0, 1, None, "yes", [], Answering(), *(lying(1, way) for way in (0, 1))):
            for call in (
                lambda: lakhdzeva.sign(A128, b"", compact=other),
                lambda: lakhdzeva.sign_detached(A128, b"", compact=other),
                lambda: lakhdzeva.verify(RFC7515_KEY, token, all=other),
                lambda: lakhdzeva.verify_detached(RFC7515_KEY, token, b"", all=other),
                lambda: lakhdzeva.encrypt(A128, b"", compact=other),
                lambda: lakhdzeva.encrypt_detached(A128, b"", compact=other),
                lambda: lakhdzeva.format_signed(token, compact=other),
                lambda: lakhdzeva.format_signed_detached(token, compact=other),
                lambda: lakhdzeva.format_encrypted(a3, compact=other),
                lambda: lakhdzeva.format_encrypted_detached(a3, compact=other),
            ):
                with self.assertRaisesRegex(TypeError, "must be True or False"):
                    call()
            if type(other) is Answering:
                with self.assertRaisesRegex(TypeError, "signers must be an int"):
                    lakhdzeva.verify_all(RFC7515_KEY, other, token)
                with self.assertRaisesRegex(TypeError, "iterations must be an int"):
                    lakhdzeva.decrypt(A128, a3, iterations=other)

    def test_what_only_says_that_it_is_of_a_class(self):
        for kind in (bytes, bytearray, str, dict, list):

            class Other:
                __class__ = kind

            for call in (
                lambda: lakhdzeva.thumbprints(Other()),
                lambda: lakhdzeva.generate(Other()),
                lambda: lakhdzeva.verify(RFC7515_KEY, Other()),
                lambda: lakhdzeva.sign(RFC7515_KEY, Other()),
                lambda: lakhdzeva.thumbprints(RFC7515_KEY, Other()),
            ):
                with self.assertRaises(TypeError):
                    call()

    def test_a_memoryview_of_another_shape(self):
        octets = bytes(range(240))
        views = [
            memoryview(octets)[::-1],
            memoryview(bytearray(octets))[5:200:3],
            memoryview(array.array("I", range(60))),
            memoryview(array.array("d", [0.5, 1.5]))[::-1],
            memoryview(octets).cast("B", (4, 60)),
            memoryview(octets).cast("H"),
            memoryview((ctypes.c_uint16 * 7)(*range(7))),
            memoryview(b""),
        ]
        for view in views:
            expected = token_of(FIRST, '{"alg":"HS256"}', view.tobytes())
            self.assertEqual(lakhdzeva.sign(key_of(FIRST), view), expected)
            detached = lakhdzeva.sign_detached(key_of(FIRST), view)
            self.assertIsNone(lakhdzeva.verify_detached(key_of(FIRST), detached, view))
        released = memoryview(octets)
        released.release()
        with self.assertRaises(ValueError):
            lakhdzeva.sign(key_of(FIRST), released)

    def test_a_bytearray_that_changes_during_the_call(self):
        for kind in (bytearray, *LYING[bytearray]):
            octets = kind(self.PAYLOAD)
            called = _library.sign

            def sign(*arguments):
                bytearray.clear(octets)
                return called(*arguments)

            with mock.patch.object(_library, "sign", sign):
                self.assertEqual(lakhdzeva.sign(key_of(FIRST), octets), token_of(FIRST, '{"alg":"HS256"}', self.PAYLOAD))
            self.assertEqual(bytearray.__len__(octets), 0)

    def test_a_dict_that_holds_itself(self):
        key = key_of(FIRST)
        key["self"] = key
        with self.assertRaises(RecursionError):
            lakhdzeva.sign(key, b"")


class Signer(Case):
    """verify_signer: which key of a set signed. The signatures are made by Python's hmac."""

    def test_the_first_key_that_signed(self):
        keys = [key_of(FIRST, kid="a"), key_of(SECOND, kid="b"), key_of(SECOND, kid="c")]
        for signer, octets in ((0, FIRST), (1, SECOND)):
            token = token_of(octets, '{"alg":"HS256"}', b"hi")
            self.assertEqual(lakhdzeva.verify_signer(keys, token), (b"hi", signer))
            self.assertEqual(lakhdzeva.verify_signer(lakhdzeva.Keys(keys), token).signer, signer)
            self.assertEqual(lakhdzeva.verify_signer(key_of(octets), token).signer, 0)
        both = signed_by(b"hi", SECOND, FIRST)
        self.assertEqual(lakhdzeva.verify_signer(keys, both), (b"hi", 0))
        self.assertEqual(lakhdzeva.verify_signer(keys[1:], both), (b"hi", 0))
        self.assertEqual(lakhdzeva.verify_signer([key_of(bytes(32)), *keys], both).signer, 1)

    def test_a_key_for_something_else_is_no_signer(self):
        keys = [key_of(FIRST, use="enc"), key_of(FIRST, alg="HS512"), key_of(FIRST)]
        self.assertEqual(lakhdzeva.verify_signer(keys, token_of(FIRST, '{"alg":"HS256"}', b"")).signer, 2)

    def test_refusals(self):
        token = token_of(FIRST, '{"alg":"HS256"}', b"hi")
        for keys in ([{"kty": "RSA"}, key_of(FIRST)], [key_of(FIRST), {}], lakhdzeva.Keys([key_of(FIRST), {}])):
            self.blames(Fault, 9, lakhdzeva.verify_signer, keys, token)
        self.blames(Fault, 7, lakhdzeva.verify_signer, "{", token)
        self.blames(BadToken, 17, lakhdzeva.verify_signer, key_of(SECOND), token)
        self.blames(BadToken, 10, lakhdzeva.verify_signer, key_of(FIRST), "a.b")
        self.blames(Fault, 14, lakhdzeva.verify_signer, key_of(FIRST, use="enc"), token)


class Types(Case):
    def test_wrong_types(self):
        token, key = RFC7515_A1, RFC7515_KEY
        others = [None, 5, 1.5, object(), {1}, (1,), bytearray(b"{}"), memoryview(b"{}"), RFC7515_KEY.split]
        for other in others:
            for call in (
                lambda: lakhdzeva.sign(other, b""),
                lambda: lakhdzeva.verify(other, token),
                lambda: lakhdzeva.verify_signer(other, token),
                lambda: lakhdzeva.verify_all(other, 1, token),
                lambda: lakhdzeva.verify_detached(other, token, b""),
                lambda: lakhdzeva.verify_all_detached(other, 1, token, b""),
                lambda: lakhdzeva.Keys(other),
                lambda: lakhdzeva.encrypt(other, b""),
                lambda: lakhdzeva.decrypt(other, token),
                lambda: lakhdzeva.thumbprint(other),
                lambda: lakhdzeva.thumbprints(other),
                lambda: lakhdzeva.judge_keys(other),
                lambda: lakhdzeva.verify(key, other),
                lambda: lakhdzeva.verify_signer(key, other),
                lambda: lakhdzeva.verify_all(key, 1, other),
                lambda: lakhdzeva.decrypt(key, other),
                lambda: lakhdzeva.format_signed(other),
                lambda: lakhdzeva.format_encrypted(other),
            ):
                with self.assertRaisesRegex(TypeError, type(other).__name__):
                    call()
            if other is not None:
                for call in (
                    lambda: lakhdzeva.generate(other),
                    lambda: lakhdzeva.sign(key, b"", other),
                    lambda: lakhdzeva.encrypt(key, b"", other),
                ):
                    with self.assertRaisesRegex(TypeError, "template must be"):
                        call()
        for other in (None, 256, b"S256", ["S256"]):
            with self.assertRaisesRegex(TypeError, "hash must be"):
                lakhdzeva.thumbprint(A128, other)
        for other in ([], ["a"], [json.loads(key)]):
            with self.assertRaisesRegex(TypeError, "list"):
                lakhdzeva.verify(key, other)

    def test_contents_are_octets(self):
        key = key_of(FIRST)
        for other in ("text", 5, [1, 2], {}, object(), None):
            calls = [lambda: lakhdzeva.sign(key, other), lambda: lakhdzeva.encrypt(key, other)]
            if other is not None:
                calls += [
                    lambda: lakhdzeva.verify_detached(key, RFC7515_A1, other),
                    lambda: lakhdzeva.verify_all_detached(key, 1, RFC7515_A1, other),
                    lambda: lakhdzeva.decrypt(key, RFC7516_A3, ciphertext=other),
                    lambda: lakhdzeva.format_signed(RFC7515_A1, payload=other),
                    lambda: lakhdzeva.format_encrypted(RFC7516_A3, ciphertext=other),
                ]
            for call in calls:
                with self.assertRaisesRegex(TypeError, r"must be octets, not str: encode it" if other == "text" else "must be bytes"):
                    call()

    def test_options_have_names(self):
        for call in (
            lambda: lakhdzeva.sign(A128, b"", {}, True),
            lambda: lakhdzeva.verify(A128, RFC7515_A1, True),
            lambda: lakhdzeva.encrypt(A128, b"", {}, True),
            lambda: lakhdzeva.verify_all(A128, 1, RFC7515_A1, b""),
            lambda: lakhdzeva.verify_detached(A128, RFC7515_A1, b"", True),
            lambda: lakhdzeva.decrypt(A128, RFC7516_A3, b""),
            lambda: lakhdzeva.format_signed(RFC7515_A1, True),
            lambda: lakhdzeva.format_encrypted(RFC7516_A3, True),
        ):
            with self.assertRaises(TypeError):
                call()

    def test_values_that_json_does_not_have(self):
        for value in (float("nan"), float("inf")):
            with self.assertRaises(ValueError):
                lakhdzeva.sign(key_of(FIRST, extra=value), b"")
        with self.assertRaises(TypeError):
            lakhdzeva.sign(key_of(FIRST, extra=b"octets"), b"")

    def test_texts_of_json_are_passed_as_they_are(self):
        for text in ('{"kty":"oct","k":"%s","x":NaN}', '{"kty":"oct","k":"%s",}'):
            self.refused(7, "Json", lakhdzeva.sign, text % b64(FIRST), b"")
        # Of a repeated name only the last member counts.
        text = '{"kty":"oct","k":"%s","k":"%s"}' % (b64(FIRST), b64(SECOND))
        self.assertEqual(lakhdzeva.verify(text, token_of(SECOND, '{"alg":"HS256"}', b"")), b"")

    def test_all_names_are_public(self):
        for name in lakhdzeva.__all__:
            self.assertTrue(getattr(lakhdzeva, name).__doc__)
        public = (
            "BadToken Fault KeyUses Keys Refused Signed decrypt encrypt encrypt_detached format_encrypted format_encrypted_detached format_signed "
            "format_signed_detached generate judge_keys library refusals sign sign_detached thumbprint thumbprints verify verify_all verify_all_detached "
            "verify_detached verify_signer"
        )
        self.assertEqual(sorted(lakhdzeva.__all__), public.split())


class Library(Case):
    """The functions of the shared library, and the rooms of their answers."""

    def calls(self):
        """For each function with places: its arguments, and how many places it has."""
        text, octets, flags = json.dumps(key_of(FIRST)).encode(), b"0123456789", _library.COMPACT
        wrap, detach = json.dumps(A128).encode(), _library.DETACH
        signed, a3 = RFC7515_A1.encode(), RFC7516_A3.encode()
        rfc7515, rfc7516 = RFC7515_KEY.encode(), RFC7516_KEY.encode()
        size = b'{"bytes":20}'
        return {
            "generate": ((size, len(size)), 1),
            "thumbprints": ((text, len(text), 256), 1),
            "judge_keys": ((text, len(text)), 1),
            "sign": ((text, len(text), None, 0, flags, octets, 10), 1),
            "verify": ((rfc7515, len(rfc7515), signed, len(signed), 0), 1),
            "verify_all": ((rfc7515, len(rfc7515), 1, signed, len(signed)), 1),
            "format_signed": ((signed, len(signed), None, 0, detach), 2),
            "encrypt": ((wrap, len(wrap), None, 0, flags | detach, octets, 10), 2),
            "decrypt": ((rfc7516, len(rfc7516), a3, len(a3), None, 0, 0), 1),
            "format_encrypted": ((a3, len(a3), None, 0, detach), 2),
        }

    def call(self, name, arguments, rooms):
        """Calls the function with places of these rooms. Behind each place is one octet more, which the call must not change."""
        places = [bytearray(b"\xaa" * (room + 1)) for room in rooms]
        lengths = [ctypes.c_size_t(77) for _ in rooms]
        rest = []
        for place, room, length in zip(places, rooms, lengths):
            rest += [(ctypes.c_char * len(place)).from_buffer(place), room, ctypes.byref(length)]
        with with_random(bytes(4096)):
            status = getattr(_library, name)(*arguments, *rest)
        return status, [length.value for length in lengths], [bytes(place) for place in places]

    def test_a_place_that_is_one_octet_too_small(self):
        for name, (arguments, count) in self.calls().items():
            status, lengths, places = self.call(name, arguments, [5000] * count)
            self.assertEqual(status, 0, name)
            answers = [place[:length] for place, length in zip(places, lengths)]
            for length, place in zip(lengths, places):
                self.assertGreater(length, 0, name)
                self.assertEqual(place[length:], b"\xaa" * (5001 - length), name)
            status, again, places = self.call(name, arguments, lengths)
            self.assertEqual((status, again, [place[:-1] for place in places]), (0, lengths, answers), name)
            self.assertEqual([place[-1] for place in places], [0xAA] * count, name)
            for small in range(count):
                rooms = [length - (index == small) for index, length in enumerate(lengths)]
                status, again, places = self.call(name, arguments, rooms)
                self.assertEqual((status, again), (3, lengths), name)
                self.assertEqual(places, [b"\xaa" * (room + 1) for room in rooms], name)
            self.assertEqual(self.call(name, arguments, [0] * count)[:2], (3, lengths), name)

    def test_a_refusal_leaves_the_places(self):
        for name, (arguments, count) in self.calls().items():
            # The first text is keys, a template or a token. An opening brace alone is not JSON.
            status, lengths, places = self.call(name, (b"{", 1) + arguments[2:], [5000] * count)
            self.assertEqual((status, lengths, places), (7, [0] * count, [b"\xaa" * 5001] * count), name)

    def test_too_few_random_octets(self):
        template, wrap = b'{"bytes":20}', json.dumps(A128).encode()
        for count in (0, 19, 20):
            with with_random(bytes(count)):
                status = _library.generate(template, len(template), *_library.Place(5000).arguments())
                self.assertEqual(status, 0 if count == 20 else 5)
        # A key of 32 octets and an initialization vector of 16, for A128CBC-HS256.
        for count in (0, 32, 47, 48):
            with with_random(bytes(count)):
                status = _library.encrypt(wrap, len(wrap), None, 0, 0, b"", 0, *_library.Place(5000).arguments(), None, 0, None)
                self.assertEqual(status, 0 if count == 48 else 5)

    def test_a_content_that_is_not_detached_needs_no_place(self):
        for name in ("format_signed", "encrypt", "format_encrypted"):
            arguments, _ = self.calls()[name]
            at = 4  # Where the flags are.
            arguments = arguments[:at] + (0,) + arguments[at + 1 :]
            status, lengths, places = self.call(name, arguments, [5000, 0])
            self.assertEqual((status, lengths[1], places[1]), (0, 0, b"\xaa"), name)

    def counted(self):
        """The rooms of the places of a call."""
        places = []
        made = _library.Place.__init__

        def counted(place, room):
            places.append(room)
            made(place, room)

        return mock.patch.object(_library.Place, "__init__", counted), places

    def test_rooms_suffice(self):
        patch, places = self.counted()

        def check(count, function, *arguments, **options):
            places.clear()
            answer = function(*arguments, **options)
            self.assertEqual(len(places), count, (function.__name__, arguments, options))
            return answer

        long = {"a" * 40: "\u00e9" * 50, "\x01\x1f\n\b\f\t\r": ["\x7f", -(2**63), 2**64 - 1, None, {"\u2028": '\\"/'}]}
        with patch:
            for size in (1, 2, 3, 63, 64, 65, 4094, 4095, 4096):
                for more in ({}, long):
                    check(1, lakhdzeva.generate, {"bytes": size, **more})
            for name in ("PBES2-HS256+A128KW", "PBES2-HS384+A192KW"):
                check(1, lakhdzeva.generate, {"bytes": 4096, "alg": name})
            for count in (1, 2, 3, 63, 64):
                least = ['{"k":"AA","kty":"oct"}'] * count
                for text in ('{"keys":[%s]}' % ",".join(least), [key_of(b"\0")] * count):
                    self.assertEqual(len(check(1, lakhdzeva.thumbprints, text, "S512")), count)
                for octets, payload, more in itertools.product((32, 48, 64), (0, 1, 2, 300), ({}, long)):
                    keys = [key_of(bytes(octets))] * count
                    for template in ({"protected": more}, {"header": more}, {"header": {"alg": "HS256"}, "protected": more}):
                        check(1, lakhdzeva.sign, keys, bytes(payload), template, compact=False)
                        token = check(1, lakhdzeva.sign_detached, keys, bytes(payload), template, compact=False)
                        for form in (token, json.dumps(json.loads(token))):
                            check(2, lakhdzeva.format_signed, form, payload=bytes(payload))
                            check(2, lakhdzeva.format_signed_detached, form, payload=bytes(payload))
            wraps = [(16, "A128KW"), (32, "A256KW"), (32, "A256GCMKW"), (1, "PBES2-HS256+A128KW"), (1, "PBES2-HS512+A256KW")]
            for count, (octets, name), enc in itertools.product((1, 2, 64), wraps, ("A256CBC-HS512", "A128GCM")):
                text = '{"keys":[%s]}' % ",".join(['{"k":"%s","kty":"oct"}' % b64(bytes(octets))] * count)
                header = {"alg": name, "enc": enc, **({"p2c": 1000} if name[0] == "P" else {})}
                for template in ({"protected": header}, {"unprotected": header}, {"protected": {**header, **long}, "aad": "A" * 400}):
                    for plaintext in (0, 15, 16, 300):
                        check(2, lakhdzeva.encrypt, text, bytes(plaintext), template, compact=False)
                        answer = check(2, lakhdzeva.encrypt_detached, text, bytes(plaintext), template, compact=False)
                    check(2, lakhdzeva.format_encrypted, answer[0], ciphertext=answer[1])
                    check(2, lakhdzeva.format_encrypted_detached, answer[0], ciphertext=answer[1])
                # Each of the keys is a password for each of the recipients.
                opened = check(1, lakhdzeva.decrypt, text, answer[0], ciphertext=answer[1], iterations=1000 * count**2)
                self.assertEqual(opened, bytes(300))
            for token in (RFC7515_A1, RFC7515_A1 + "\n"):
                check(2, lakhdzeva.format_signed, token)
            for length, header in ((100000, {}), (0, {"a": "b" * 50000}), (100001, {"a": "b" * 100001})):
                content, template = bytes(length), {"protected": header}
                detached = check(1, lakhdzeva.sign_detached, key_of(FIRST), content, template)
                signed = check(1, lakhdzeva.sign, key_of(FIRST), content, template)
                for token in (signed, check(2, lakhdzeva.format_signed, detached, payload=content)):
                    self.assertEqual(check(1, lakhdzeva.verify, key_of(FIRST), token), content)
                    self.assertEqual(check(2, lakhdzeva.format_signed_detached, token, compact=True), (detached, content))
                token = check(2, lakhdzeva.encrypt, A128, content, template)
                detached, ciphertext = check(2, lakhdzeva.format_encrypted_detached, token, compact=True)
                self.assertEqual(check(2, lakhdzeva.format_encrypted, detached, compact=True, ciphertext=ciphertext), token)
                self.assertEqual(check(1, lakhdzeva.decrypt, A128, token), content)
                self.assertEqual(check(1, lakhdzeva.decrypt, A128, detached, ciphertext=ciphertext), content)
            for length in range(70):
                check(1, lakhdzeva.verify, key_of(FIRST), token_of(FIRST, '{"alg":"HS256"}', bytes(length)))
                check(1, lakhdzeva.verify_all, key_of(FIRST), 1, token_of(FIRST, '{"alg":"HS256"}', bytes(length)))

    def test_rooms_of_a_long_template(self):
        """A room is not many times the length of the answer: a signature repeats the template, and a recipient does not."""
        patch, places = self.counted()
        template = {"protected": {"a": "b" * 100000}}
        for count in (1, 20, 64):
            keys = [key_of(FIRST, alg="HS256")] * count
            wraps = [key_of(FIRST, alg="A256KW")] * count
            for make in (lambda: lakhdzeva.sign(keys, b"", template, compact=False), lambda: lakhdzeva.encrypt(wraps, b"", template, compact=False)):
                with patch:
                    places.clear()
                    token = make()
                    self.assertLess(places[0], 3 * len(token), count)


class Threads(Case):
    def test_32_threads_at_once(self):
        ready = threading.Barrier(32)

        def work(number):
            octets = hashlib.sha256(b"%d" % number).digest()
            key, wrap = key_of(octets), key_of(octets, alg="A256KW")
            payload = octets * (number + 1)
            ready.wait()
            for _ in range(20):
                token = lakhdzeva.sign(key, payload)
                if token != token_of(octets, '{"alg":"HS256"}', payload) or lakhdzeva.verify(key, token) != payload:
                    return False
                if lakhdzeva.decrypt(wrap, lakhdzeva.encrypt(wrap, payload)) != payload:
                    return False
                try:
                    lakhdzeva.verify(key_of(SECOND), token)
                    return False
                except Refused as refused:
                    if refused.number != 17:
                        return False
            return True

        with ThreadPoolExecutor(32) as pool:
            self.assertEqual(list(pool.map(work, range(32))), [True] * 32)


class Loading(Case):
    def run_with(self, library, *options, **variables):
        """Imports the package in another process, with the name of a library."""
        environment = {**os.environ, "LAKHDZEVA_LIBRARY": library, **variables}
        program = (
            "import sys\nsys.path.insert(0, sys.argv[1])\ntry:\n import lakhdzeva\nexcept ImportError as error:\n print('refused:', error)\n"
            "else:\n print('imported')"
        )
        words = [sys.executable, *options, "-c", program, str(Path(lakhdzeva.__file__).parent.parent)]
        return subprocess.run(words, env=environment, capture_output=True, text=True, check=True).stdout

    def test_the_variable_names_the_library(self):
        self.assertEqual(self.run_with(lakhdzeva.library().file), "imported\n")

    def test_a_library_that_is_not_there(self):
        answer = self.run_with("/nowhere/liblakhdzeva.so.3")
        self.assertRegex(answer, "^refused: the shared library of lakhdzeva cannot be loaded: /nowhere/liblakhdzeva.so.3: .*LAKHDZEVA_LIBRARY")

    def test_an_isolated_python_does_not_read_the_variable(self):
        # The system finds the library by its name.
        folder = {"LD_LIBRARY_PATH": str(Path(lakhdzeva.library().file).resolve().parent)}
        self.assertRegex(self.run_with("/nowhere/liblakhdzeva.so.3", **folder), "^refused: ")
        for option in ("-I", "-E"):
            self.assertEqual(self.run_with("/nowhere/liblakhdzeva.so.3", option, **folder), "imported\n")

    def test_it_says_what_is_loaded(self):
        loaded = lakhdzeva.library()
        self.assertTrue(Path(loaded.file).samefile(os.environ.get("LAKHDZEVA_LIBRARY") or loaded.file))
        self.assertIn(loaded.file, Path("/proc/self/maps").read_text())
        self.assertEqual(loaded.version, lakhdzeva.__version__)

    def test_another_library(self):
        self.assertRegex(self.run_with("libc.so.6"), "^refused: libc.so.6 is not version 3 of the shared library of lakhdzeva: ")

    def test_the_version_is_that_of_the_repository(self):
        sources = Path(__file__).resolve().parent.parent
        files = [folder / "VERSION" for folder in (sources, sources.parent.parent) if (folder / "VERSION").is_file()]
        self.assertEqual(lakhdzeva.__version__, files[0].read_text().split()[0])


if __name__ == "__main__":
    unittest.main()
