"""Texts that scripts make without the program: base64url, keys and their names, signed objects, and other forms of an object."""
import base64, hashlib, hmac, json

from lib.standards import RFC7515_KEY

HS256 = b'{"alg":"HS256"}'
PARTS = {3: ("protected", "payload", "signature"), 5: ("protected", "encrypted_key", "iv", "ciphertext", "tag")}


def b64(octets):
    return base64.urlsafe_b64encode(octets).rstrip(b"=")


def octets_of(text):
    return base64.urlsafe_b64decode(text + b"=" * (-len(text) % 4))


def oct_key(octets, **members):
    return json.dumps({"kty": "oct", "k": b64(octets).decode()} | members, separators=(",", ":")).encode()


def key_set(*keys):
    return b'{"keys":[%s]}' % b",".join(keys)


def thumbprint(key):
    """The name of a key by RFC 7638, with SHA-256."""
    return b64(hashlib.sha256(b'{"k":"%s","kty":"oct"}' % json.loads(key)["k"].encode()).digest())


def signed(payload, header=HS256, key=RFC7515_KEY):
    """The compact text of a payload, signed by HS256 with Python's `hmac`."""
    text = b64(header) + b"." + b64(payload)
    return text + b"." + b64(hmac.digest(octets_of(json.loads(key)["k"].encode()), text, "sha256"))


def detached(compact):
    """The compact text without its payload or ciphertext."""
    *before, _, last = compact.split(b".")
    return b".".join([*before, b"", last])


def flattened(compact):
    """The same object in JSON form."""
    parts = compact.decode().split(".")
    return json.dumps(dict(zip(PARTS[len(parts)], parts)), sort_keys=True, separators=(",", ":")).encode()
