"""Copies of crates, with the results of their earlier checks, for scripts that change them or that build a program over them."""
import os, re, shutil, subprocess

from lib.sources import ROOT, read

# The processor that everything is built for.
PROCESSOR = read(f"{ROOT}/scripts/lib/processor").strip()


def rows():
    """The rows of crates.txt by the names of their crates."""
    return {re.match(r"\w+", row)[0]: row for row in read(f"{ROOT}/crates.txt").splitlines(True) if re.match(r"\w", row)}


def with_below(names):
    """These crates, and those of the repository that they use."""
    known, found, todo = rows(), set(), list(names)
    while todo:
        name = todo.pop()
        if name in known and name not in found:
            found.add(name)
            todo += known[name].split(":")[1].split()
    return found


def copied(names, room):
    """Copies these crates and those below them into a folder, with their crates.txt. What the checks of those below keep stays behind."""
    there = with_below(names)
    with open(f"{room}/crates.txt", "w", encoding="utf-8") as file:
        file.writelines(row for name, row in rows().items() if name in there)
    for it in there:
        left = ["must-fail", "edits"] + ["incremental"] * (it not in names)
        shutil.copytree(f"{ROOT}/crates/{it}", f"{room}/crates/{it}", ignore=shutil.ignore_patterns(*left))


def made(name, uses, room, kind=""):
    """Makes a crate of scripts/lib/NAME.rattle over these crates, in copies of them. Returns its folder."""
    copied(uses, room)
    with open(f"{room}/crates.txt", "a", encoding="utf-8") as file:
        file.write(f"{name}{kind}: {' '.join(uses)}\n")
    folder = f"{room}/crates/{name}"
    os.makedirs(f"{folder}/src")
    shutil.copy(f"{ROOT}/scripts/lib/{name}.rattle", f"{folder}/src/{'lib' if kind else 'main'}.rt")
    return folder


def built(name, uses, words, room):
    """Proves and builds the program scripts/lib/NAME.rattle, and runs it once with these words and nothing to read. Returns its path."""
    folder = made(name, uses, room)
    subprocess.run(["rt", "run", f"--cpu={PROCESSOR}", "--", *words], cwd=folder, stdin=subprocess.DEVNULL, stdout=subprocess.DEVNULL, check=True)
    return f"{folder}/out/{name}"


def built_library(name, uses, room, processor):
    """Proves scripts/lib/NAME.rattle and builds it for a processor, as a library for C. Returns its path."""
    folder = made(name, uses, room, " staticlib")
    subprocess.run(["rt", "lib", f"--cpu={processor}"], cwd=folder, stdin=subprocess.DEVNULL, stdout=subprocess.DEVNULL, check=True)
    return f"{folder}/out/lib{name}.a"
