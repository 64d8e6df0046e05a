"""The calls that scripts/interop makes to joserfc."""
import json

from joserfc import jwe, jws
from joserfc.jwe import FlattenedJSONEncryption, GeneralJSONEncryption, JWERegistry
from joserfc.jwk import OctKey

from peer import octets, serve, text_of

HMACS = ['HS256', 'HS384', 'HS512']
# It is enough that one of several keys opens the token.
REGISTRY = JWERegistry(algorithms=[name for names in JWERegistry.algorithms.values() for name in names], verify_all_recipients=False)


def key(k):
    return OctKey.import_key(octets(k))


def sign(ask):
    form, algs, payload = ask['form'], ask['algs'], octets(ask['payload'])
    if form.startswith('compact'):
        token = jws.serialize_compact({'alg': algs[0]}, payload, key(ask['keys'][0]), HMACS)
        return jws.detach_content(token) if form.endswith('detached') else token
    token = jws.serialize_json({'protected': {'alg': algs[0]}}, payload, key(ask['keys'][0]), HMACS)
    return json.dumps(jws.detach_content(token) if form.endswith('detached') else token)


def verify(ask):
    if ask['text'].startswith('{'):
        return text_of(jws.deserialize_json(json.loads(ask['text']), key(ask['key']), HMACS).payload)
    detached = octets(ask['detached']) if ask['detached'] else None
    return text_of(jws.deserialize_compact(ask['text'], key(ask['key']), HMACS, payload=detached).payload)


def encrypt(ask):
    form, algs, keys = ask['form'], ask['algs'], [key(k) for k in ask['keys']]
    plaintext, header = octets(ask['plaintext']), {'enc': ask['enc']}
    if len(algs) == 1:
        header['alg'] = algs[0]
    if form == 'compact, zip':
        header['zip'] = 'DEF'
    if form.startswith('compact'):
        return jwe.encrypt_compact(header, plaintext, keys[0], registry=REGISTRY)
    aad = octets(ask['aad']) if ask['aad'] else None
    kind = GeneralJSONEncryption if len(algs) > 1 else FlattenedJSONEncryption
    if form == 'alg and enc in unprotected':
        made = kind({}, plaintext, header, aad)
    else:
        made = kind(header, plaintext, None, aad)
    for alg, one in zip(algs, keys):
        made.add_recipient({'alg': alg} if len(algs) > 1 else {}, one)
    return json.dumps(jwe.encrypt_json(made, None, registry=REGISTRY))


def decrypt(ask):
    one = key(ask['key'])
    if ask['text'].startswith('{'):
        return text_of(jwe.decrypt_json(json.loads(ask['text']), one, registry=REGISTRY).plaintext)
    return text_of(jwe.decrypt_compact(ask['text'], one, registry=REGISTRY).plaintext)


serve(globals())
