"""The calls that scripts/interop makes to PyJWT, which signs and verifies tokens in compact form."""
from jwt.api_jws import PyJWS

from peer import octets, serve, text_of

HMACS = ['HS256', 'HS384', 'HS512']


def sign(ask):
    return PyJWS().encode(octets(ask['payload']), octets(ask['keys'][0]), ask['algs'][0])


def verify(ask):
    return text_of(PyJWS().decode(ask['text'], octets(ask['key']), HMACS))


serve(globals())
