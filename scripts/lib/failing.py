"""Programs that fail. A trial runs once with a wrapper in the place of each program of the path, which counts its calls. Then it runs again
for each call that was counted, and that call fails in one of the ways of WAYS. No run may end with 0 and another result than the first one.

Some programs also end with 0, and do half of their work or nothing. A tool can notice this of each program that it calls, except of `jose`.
A recipe cannot: the content is what `tar`, `head` or `cat` says that it is.
"""
import os, pathlib, shlex, shutil, subprocess

# The ways in which a call fails: it does nothing; it writes half of its output; a signal ends it there. `missing` is no program at all.
WAYS = {"fails": "exit 1", "fails half way": 'half "$@"; exit 1', "is killed half way": 'half "$@"; kill -KILL $$'}
LIES = {"ends with 0 half way": 'half "$@"; exit 0', "ends with 0 and does nothing": "exit 0"}
# From the third call on a program fails in these ways alone.
LATER = {"is killed half way", "ends with 0 half way"}
WRAPPER = """#!/bin/sh
name=${0##*/}
n=1
set -C
until { true > %(calls)s/$name.$n; } 2>/dev/null; do n=$((n + 1)); done
set +C
half() {
    %(real)s/$name "$@" > %(calls)s/output.$$
    %(head)s -c $(($(%(wc)s -c < %(calls)s/output.$$) / 2)) %(calls)s/output.$$
}
[ "$name.$n" != "$FAILS" ] || eval "$HOW"
case $name in
    jose-*) PATH=%(real)s ;;
esac
exec %(real)s/$name "$@"
"""


class Failing:
    """Wrappers in a folder of their own. `own` are programs by name that are put before those of the path. The programs of a tool of tools/
    that a recipe calls are not counted: the tool has trials of its own."""

    def __init__(self, folder, path, own):
        self.folder, self.calls = folder, folder / "calls"
        self.bin, real = folder / "bin", folder / "real"
        for one in (self.calls, self.bin, real):
            one.mkdir(parents=True)
        found = {}
        for part in reversed(path.split(":")):
            found |= {one.name: one for one in pathlib.Path(part).glob("*") if os.access(one, os.X_OK) and one.is_file()}
        found |= own
        for name, one in found.items():
            (real / name).symlink_to(one)
        words = {"calls": self.calls, "real": real, "head": shutil.which("head"), "wc": shutil.which("wc")}
        (folder / "wrapper").write_text(WRAPPER % {name: shlex.quote(str(word)) for name, word in words.items()})
        (folder / "wrapper").chmod(0o755)
        for name in found:
            (self.bin / name).symlink_to(folder / "wrapper")

    def run(self, words, env, at, fails="", how="", **more):
        """Runs the words in the folder `at`. Returns the status and the standard output."""
        shutil.rmtree(self.calls)
        self.calls.mkdir()
        env = {**env, "PATH": str(self.bin), "FAILS": fails, "HOW": how}
        done = subprocess.run(words, cwd=at, env=env, stdout=subprocess.PIPE, stderr=subprocess.DEVNULL, stdin=subprocess.DEVNULL, timeout=120, **more)
        return done.returncode, done.stdout

    def counted(self):
        """How often each program was called in the last run."""
        counts = {}
        for one in self.calls.iterdir():
            name, _, number = one.name.rpartition(".")
            if name != "output":
                counts[name] = max(counts.get(name, 0), int(number))
        return counts

    def problems(self, run, wanted_status, believed=None, most=None, optional=()):
        """`run(FAILS, HOW)` returns a status, an output and the files. Returns the runs that ended with 0 and with another result than that of
        the first run, and how many runs there were. Programs that are not `believed` also do half and end with 0. `most` is how many calls of a
        program are tried. `optional` programs may be missing."""
        wanted = run()
        counts = self.counted()
        if wanted[0] != wanted_status:
            return [f"without a failure: status {wanted[0]}"], 1
        found, runs = [], 0
        for name, count in sorted(counts.items()):
            ways = WAYS | (LIES if believed is not None and name not in believed else {})
            cases = [(f"{name} {way} at its call {n}", f"{name}.{n}", how) for n in range(1, min(count, most or count) + 1) for way, how in ways.items() if n < 3 or way in LATER]
            for what, fails, how in [*cases, *([] if name in optional else [(f"{name} is missing", "", "")])]:
                if not fails:
                    (self.bin / name).unlink()
                result = run(fails, how)
                if not fails:
                    (self.bin / name).symlink_to(self.folder / "wrapper")
                runs += 1
                if result[0] == 0 and result != wanted:
                    files = sorted(name for name in {**result[2], **wanted[2]} if result[2].get(name) != wanted[2].get(name))
                    found.append(f"{what}: it ends with 0, with the output {result[1][:300]!r} and other files: {files}")
        return found, runs
