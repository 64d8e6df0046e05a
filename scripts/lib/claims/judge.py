"""Verifies each token of standard input with the keys in the first argument, and judges its claims by examples/python/claims.py. A line has the
time, the leeway, the issuer, the audience and the type that are expected, or - for none, and the token, with tabs between them. Prints for each
`yes`, the claim that is wrong, the refusal, or `expected` if what is expected is refused. The other programs of this folder do the same.
"""
import sys

import lakhdzeva
from claims import claims_of


def answer(line):
    now, leeway, issuer, audience, typ, token = line.split("\t")
    issuer, audience, typ = (None if it == "-" else it for it in (issuer, audience, typ))
    answers = set()
    for one in token, token.encode():
        try:
            claims = claims_of(one, lakhdzeva.verify(keys, one), float(now), issuer=issuer, audience=audience, typ=typ, leeway=float(leeway))
            answers.add("yes" if type(claims) is dict else f"{claims!r}")
        except (lakhdzeva.Refused, ValueError) as wrong:
            answers.add(str(wrong))
        except TypeError:
            answers.add("expected")
    return " or ".join(sorted(answers))


keys = lakhdzeva.Keys(sys.argv[1])
for line in open(0, encoding="utf-8", newline="\n"):
    print(answer(line.rstrip("\n")), flush=True)
