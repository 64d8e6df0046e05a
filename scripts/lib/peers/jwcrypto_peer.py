"""The calls that scripts/interop makes to jwcrypto."""
import json

from jwcrypto import jwe, jwk, jws

from peer import octets, serve, text_of

ALGORITHMS = jwe.default_allowed_algs


def key(k):
    return jwk.JWK(kty='oct', k=k)


def members(ask):
    return ask.get('others', {})


def sign(ask):
    token = jws.JWS(octets(ask['payload']))
    for alg, k in zip(ask['algs'], ask['keys']):
        if ask['form'] == 'alg in header':
            token.add_signature(key(k), header={**members(ask), 'alg': alg})
        else:
            token.add_signature(key(k), protected={**members(ask), 'alg': alg})
    if ask['form'].endswith('detached'):
        token.detach_payload()
    return token.serialize(ask['form'].startswith('compact'))


def verify(ask):
    token = jws.JWS()
    token.deserialize(ask['text'])
    token.verify(key(ask['key']))
    return text_of(token.payload)


def encrypt(ask):
    form, algs = ask['form'], ask['algs']
    header = {**members(ask), 'enc': ask['enc']}
    if len(algs) == 1:
        header['alg'] = algs[0]
    if form == 'compact, zip':
        header['zip'] = 'DEF'
    where = 'unprotected' if form == 'alg and enc in unprotected' else 'protected'
    aad = octets(ask['aad']) if ask['aad'] else None
    token = jwe.JWE(octets(ask['plaintext']), aad=aad, algs=ALGORITHMS, **{where: json.dumps(header)})
    for alg, k in zip(algs, ask['keys']):
        token.add_recipient(key(k), header={'alg': alg} if len(algs) > 1 else None)
    return token.serialize(form.startswith('compact'))


def decrypt(ask):
    token = jwe.JWE(algs=ALGORITHMS)
    token.deserialize(ask['text'])
    token.decrypt(key(ask['key']))
    return text_of(token.payload)


serve(globals())
