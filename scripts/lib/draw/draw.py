"""Does what draw.c does, by the module."""
import json, sys, threading

import lakhdzeva


def text(function, *arguments, **options):
    try:
        made = function(*arguments, **options)
    except lakhdzeva.Refused as refused:
        return str(refused)
    return made if isinstance(made, str) else json.dumps(made, separators=(",", ":"))


def draw():
    key = text(lakhdzeva.generate, {"bytes": 100})
    sys.stdout.write(f"{key}\t{text(lakhdzeva.encrypt, sys.argv[1], b'hello', sys.argv[2], compact=False)}\n")


threads = [threading.Thread(target=draw) for _ in range(8 if len(sys.argv) > 3 else 1)]
for thread in threads:
    thread.start()
for thread in threads:
    thread.join()
