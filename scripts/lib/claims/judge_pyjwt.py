"""Does what judge.py does, by PyJWT, whose clock is set to the time of each line. What it raises and does not document is `fails`."""
import datetime, re, sys
from unittest import mock

import jwt

# How PyJWT names what is wrong. Other errors have the name of the claim in brackets, or are about the form of the payload.
NAMES = {jwt.ExpiredSignatureError: "exp", jwt.InvalidIssuerError: "iss", jwt.InvalidAudienceError: "aud"}


def answer(line):
    now, leeway, issuer, audience, typ, token = line.split("\t")
    issuer, audience = (None if it == "-" else it for it in (issuer, audience))

    class Clock(datetime.datetime):
        @classmethod
        def now(cls, tz=None):
            return datetime.datetime.fromtimestamp(float(now), tz)

    try:
        with mock.patch("jwt.api_jwt.datetime", Clock):
            jwt.decode(token, SECRET, ["HS256"], {"require": ["exp"]}, audience=audience, issuer=issuer, leeway=float(leeway))
    except jwt.MissingRequiredClaimError as wrong:
        return wrong.claim
    except jwt.PyJWTError as wrong:
        named = re.search(r"\((exp|nbf|iat)\)", str(wrong))
        return NAMES.get(type(wrong)) or (named[1] if named else "form" if "segments" in str(wrong) else "claims")
    except Exception:
        return "fails"
    return "yes"


SECRET = bytes.fromhex(sys.argv[1])
for line in open(0, encoding="utf-8", newline="\n"):
    print(answer(line.rstrip("\n")), flush=True)
