"""Shared by the peers in Python: each line of standard input is a JSON request, and each line of standard output is a JSON answer."""
import base64
import json
import sys


def octets(text):
    return base64.urlsafe_b64decode(text + '=' * (-len(text) % 4))


def text_of(some):
    return base64.urlsafe_b64encode(some).rstrip(b'=').decode()


def serve(calls):
    """Answers each request with the call that it names. An exception of the call is a refusal."""
    for line in sys.stdin:
        asked = json.loads(line)
        try:
            answer = {'ok': calls[asked['do']](asked)}
        except Exception as error:
            answer = {'refused': repr(error)}
        print(json.dumps(answer), flush=True)
