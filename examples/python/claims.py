"""The claims of a JWT (RFC 7519) whose signature was verified. Copy the function, and call it after `verify`:

    claims = claims_of(token, lakhdzeva.verify(keys, token), time.time(), issuer="login", audience="api")
"""
import base64, json, math, re

COMPACT = re.compile(rb"([A-Za-z0-9_-]+)\.[A-Za-z0-9_-]+\.[A-Za-z0-9_-]+")
# Without pairs and escapes such as \\ and \", what is left has no half of a surrogate pair and no zero in a name: parsers differ on both.
USUAL, STRANGE = re.compile(r"\\[^u]|\\u[dD][89abAB]..\\u[dD][c-fC-F].."), re.compile(r'\\u(?:[dD][89a-fA-F]|0000[^"]*"\s*:)')


def claims_of(token, payload, now, *, issuer=None, audience=None, typ=None, leeway=0):
    """The claims in the payload of this token (str or bytes), which was verified, at this time in seconds since 1970. If a claim is wrong, a
    ValueError names it: form, claims, typ, exp, nbf, iss or aud. `exp` must be there. An `aud` must not be there unless an audience is expected.
    What the caller expects must not be empty, a leeway not negative, and a time finite: otherwise it is a TypeError, for each token."""

    def number(text):
        value = float(text)
        if not math.isfinite(value):  # NaN, Infinity and 1e400, which other languages refuse.
            raise ValueError
        return value if set(text) & set(".eE") else int(text)

    def is_date(value):
        return type(value) in (int, float)  # True and False are of type bool.

    def media_type(text):
        return text.encode("utf-8", "surrogatepass").lower().removeprefix(b"application/") if type(text) is str else None

    if not all(text is None or type(text) is str and text for text in (issuer, audience)) or not (typ is None or media_type(typ)):
        raise TypeError("what is expected must be a text that is not empty")
    if not all(is_date(value) and math.isfinite(value) for value in (now, leeway)) or leeway < 0:
        raise TypeError("now and leeway must be finite numbers, and leeway not negative")
    # What is no character of ASCII becomes a question mark, which no token has.
    compact = COMPACT.fullmatch(token.encode("ascii", "replace") if type(token) is str else token)
    if not compact:
        raise ValueError("form")
    try:
        text = payload.decode("utf-8")  # json.loads alone reads UTF-16 too.
        claims = json.loads(text, parse_int=number, parse_float=number, parse_constant=number)
    except (ValueError, RecursionError):
        raise ValueError("claims") from None
    if type(claims) is not dict or STRANGE.search(USUAL.sub("", text)):
        raise ValueError("claims")
    if typ is not None:
        header = json.loads(base64.urlsafe_b64decode(compact[1] + b"=" * (-len(compact[1]) % 4)))
        if media_type(header.get("typ")) != media_type(typ):
            raise ValueError("typ")
    if not is_date(claims.get("exp")) or now - leeway >= float(claims["exp"]):
        raise ValueError("exp")
    if "nbf" in claims and (not is_date(claims["nbf"]) or now + leeway < float(claims["nbf"])):
        raise ValueError("nbf")
    if issuer is not None and claims.get("iss") != issuer:
        raise ValueError("iss")
    if audience is None and "aud" in claims:
        raise ValueError("aud")
    if audience is not None:
        names = claims["aud"] if type(claims.get("aud")) is list else [claims.get("aud")]
        if audience not in names or not all(type(name) is str for name in names):
            raise ValueError("aud")
    return claims
