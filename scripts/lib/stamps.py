"""Lets later commands of rt use the libraries that `rt ci` has proved in this tree, where they would otherwise prove them a second time.

usage: python3 scripts/lib/stamps.py     right after `rt ci` has passed

`rt ci` builds each library from nothing, over those that it proved before. A command such as `rt lib` takes only a library that has a stamp, the
checksum of its sources and of those below it, and `rt ci` writes none. This script writes them, by the kit's own function. If a source or this
function changes, rt proves the library again. In a tree where other commands have built libraries, rt ci puts these back, and the script writes
nothing, since libraries of two builds do not fit together.
"""
import os, sys

sys.dont_write_bytecode = True
import kit

ROOT = os.path.dirname(os.path.dirname(os.path.dirname(os.path.abspath(__file__))))
os.chdir(ROOT)
try:
    made = [it for it in kit.crates(kit.rt(), ROOT).values() if os.path.isdir(it.rlib)]
    stamps = {f"{it.folder}/out/rlib/stamp": it.stamp() for it in made}
except (AttributeError, TypeError) as error:
    print(f"rt has other functions now, so each library will be proved again: {error}")
    sys.exit()
if not any(map(os.path.exists, stamps)):
    for path, stamp in stamps.items():
        with open(path, "w", encoding="utf-8") as file:
            file.write(stamp)
