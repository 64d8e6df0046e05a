"""The calls that scripts/interop makes to Authlib."""
import json

from authlib.jose import JsonWebEncryption, JsonWebSignature

from peer import octets, serve, text_of


def sign(ask):
    payload = octets(ask['payload'])
    if ask['form'] == 'compact':
        return JsonWebSignature().serialize_compact({'alg': ask['algs'][0]}, payload, octets(ask['keys'][0])).decode()
    return json.dumps(JsonWebSignature().serialize_json({'protected': {'alg': ask['algs'][0]}}, payload, octets(ask['keys'][0])))


def verify(ask):
    text = json.loads(ask['text']) if ask['text'].startswith('{') else ask['text']
    return text_of(JsonWebSignature().deserialize(text, octets(ask['key']))['payload'])


def encrypt(ask):
    header = {'alg': ask['algs'][0], 'enc': ask['enc']}
    if ask['form'] == 'compact, zip':
        header['zip'] = 'DEF'
    plaintext, key = octets(ask['plaintext']), octets(ask['keys'][0])
    return JsonWebEncryption().serialize_compact(header, plaintext, key).decode()


def decrypt(ask):
    return text_of(JsonWebEncryption().deserialize(ask['text'], octets(ask['key']))['payload'])


serve(globals())
