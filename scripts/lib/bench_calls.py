"""Measures calls of libraries for Python in one process: microseconds for each, the best of many short rounds. Prints a line for each call: the
library, the call, the octets of the content, and the microseconds. What is not installed is left out. usage: bench_calls.py SIZE.."""
import base64, importlib, json, sys, time

KEYS = {
    "HS256": bytes.fromhex("0323354b2b0fa5bc837e0665777ba68f5ab328e6f054c928a90f84b2d2502ebfd3fb5a92d20647ef968ab4c377623d223d2e2172052e4f08c0cd9af567d080a3"),
    "A128KW": bytes.fromhex("19ac2082e1721ab58a6afec05f854a52"), "A256GCM": bytes(range(32)),
}
ENCRYPTED = {"A128KW, A128CBC-HS256": ("A128KW", "A128KW", "A128CBC-HS256"), "dir, A256GCM": ("A256GCM", "dir", "A256GCM")}


def text_of(octets):
    return base64.urlsafe_b64encode(octets).rstrip(b"=").decode()


def key(alg):
    return {"kty": "oct", "k": text_of(KEYS[alg]), "alg": alg}


def ours():
    lib = importlib.import_module("lakhdzeva")
    keys = {alg: json.dumps(key(alg)).encode() for alg in KEYS}
    return {"sign": lambda p: lib.sign(keys["HS256"], p), "verify": lambda t: lib.verify(keys["HS256"], t),
            "encrypt": lambda p, k, alg, enc: lib.encrypt(keys[k], p), "decrypt": lambda t, k, alg, enc: lib.decrypt(keys[k], t)}


def pyjwt():
    lib = importlib.import_module("jwt").PyJWS()
    return {"sign": lambda p: lib.encode(p, KEYS["HS256"], "HS256"), "verify": lambda t: lib.decode(t, KEYS["HS256"], ["HS256"])}


def jwcrypto():
    jwk, jws, jwe = (importlib.import_module(f"jwcrypto.{it}") for it in ("jwk", "jws", "jwe"))
    keys = {alg: jwk.JWK(kty="oct", k=key(alg)["k"]) for alg in KEYS}

    def sign(payload):
        token = jws.JWS(payload)
        token.add_signature(keys["HS256"], None, '{"alg":"HS256"}')
        return token.serialize(True)

    def verify(text):
        token = jws.JWS()
        token.deserialize(text)
        token.verify(keys["HS256"])
        return token.payload

    def encrypt(plaintext, k, alg, enc):
        token = jwe.JWE(plaintext, json.dumps({"alg": alg, "enc": enc}))
        token.add_recipient(keys[k])
        return token.serialize(True)

    def decrypt(text, k, alg, enc):
        token = jwe.JWE()
        token.deserialize(text, keys[k])
        return token.payload

    return {"sign": sign, "verify": verify, "encrypt": encrypt, "decrypt": decrypt}


def joserfc():
    jws, jwe, jwk = (importlib.import_module(f"joserfc.{it}") for it in ("jws", "jwe", "jwk"))
    keys = {alg: jwk.OctKey.import_key({"kty": "oct", "k": key(alg)["k"]}) for alg in KEYS}
    return {"sign": lambda p: jws.serialize_compact({"alg": "HS256"}, p, keys["HS256"]), "verify": lambda t: jws.deserialize_compact(t, keys["HS256"]).payload,
            "encrypt": lambda p, k, alg, enc: jwe.encrypt_compact({"alg": alg, "enc": enc}, p, keys[k]),
            "decrypt": lambda t, k, alg, enc: jwe.decrypt_compact(t, keys[k]).plaintext}


def authlib():
    jose = importlib.import_module("authlib.jose")
    jws, jwe = jose.JsonWebSignature(), jose.JsonWebEncryption()
    return {"sign": lambda p: jws.serialize_compact({"alg": "HS256"}, p, KEYS["HS256"]), "verify": lambda t: jws.deserialize_compact(t, KEYS["HS256"])["payload"],
            "encrypt": lambda p, k, alg, enc: jwe.serialize_compact({"alg": alg, "enc": enc}, p, KEYS[k]),
            "decrypt": lambda t, k, alg, enc: jwe.deserialize_compact(t, KEYS[k])["payload"]}


def microseconds(call):
    call()
    best = 1e9
    for _ in range(100):
        start = time.perf_counter()
        for _ in range(20):
            call()
        best = min(best, (time.perf_counter() - start) / 20)
    return best * 1e6


def main():
    for name, make in {"ours": ours, "PyJWT": pyjwt, "jwcrypto": jwcrypto, "joserfc": joserfc, "Authlib": authlib}.items():
        try:
            calls = make()
        except ImportError:
            continue
        for size in map(int, sys.argv[1:]):
            content = b"a" * size
            token = calls["sign"](content)
            assert calls["verify"](token) == content, name
            rows = {"sign HS256": lambda: calls["sign"](content), "verify HS256": lambda: calls["verify"](token)}
            for what, how in ENCRYPTED.items() if "encrypt" in calls else ():
                sealed = calls["encrypt"](content, *how)
                assert calls["decrypt"](sealed, *how) == content, name
                rows[f"encrypt {what}"] = lambda how=how: calls["encrypt"](content, *how)
                rows[f"decrypt {what}"] = lambda how=how, sealed=sealed: calls["decrypt"](sealed, *how)
            for what, call in rows.items():
                print(name, what, size, f"{microseconds(call):.1f}", sep="\t", flush=True)


if __name__ == "__main__":
    main()
