"""The calls that scripts/interop makes to python-jose, which writes and reads compact form."""
from jose import jwe, jws

from peer import octets, serve, text_of

HMACS = ['HS256', 'HS384', 'HS512']


def sign(ask):
    return jws.sign(octets(ask['payload']), octets(ask['keys'][0]), algorithm=ask['algs'][0])


def verify(ask):
    return text_of(jws.verify(ask['text'], octets(ask['key']), HMACS))


def encrypt(ask):
    zipped = 'DEF' if ask['form'] == 'compact, zip' else None
    return jwe.encrypt(octets(ask['plaintext']), octets(ask['keys'][0]), ask['enc'], ask['algs'][0], zipped).decode()


def decrypt(ask):
    return text_of(jwe.decrypt(ask['text'], octets(ask['key'])))


serve(globals())
