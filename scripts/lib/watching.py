"""A folder whose default ACL lets everybody in (acl(5)), in which another user tries to read each file that a tool or a recipe makes. He looks
before and after each program that is called, and keeps open what he could open. At the end he reads what is in it: a mode that comes too
late helps nothing. He is `nobody` if the trial is root. Otherwise he is the same user, and opens what its mode opens to others.
"""
import json, os, pathlib, select, socket, stat, struct, subprocess, sys

NOBODY = 65534
# The tags of the entries of an ACL, and how Linux writes one: a version, and for each entry its tag, its permissions and its user.
OWNER, USER, GROUP, MASK, OTHER = 1, 2, 4, 16, 32
WRAPPER = """#!%(python)s -IS
import os, socket, subprocess, sys
def look():
    with socket.socket(socket.AF_UNIX) as spy:
        spy.connect(%(socket)r)
        spy.recv(1)
look()
status = subprocess.call([%(real)r + "/" + os.path.basename(sys.argv[0]), *sys.argv[1:]], close_fds=False)
look()
sys.exit(status if status >= 0 else 128 - status)
"""


def open_to_all(folder):
    """Gives the folder a default ACL by which everybody may read and write new files. It raises OSError where there are no ACLs."""
    entries = [(OWNER, -1), (USER, NOBODY), (GROUP, -1), (MASK, -1), (OTHER, -1)]
    acl = struct.pack("<I", 2) + b"".join(struct.pack("<HHI", tag, 7, user & 0xFFFFFFFF) for tag, user in entries)
    os.setxattr(folder, "system.posix_acl_default", acl)


class Watched:
    """A new folder with this ACL, and programs that are watched. `own` are programs by name that are put before those of the path."""

    def __init__(self, folder, path, own):
        self.at, self.bin, real = folder / "watched", folder / "bin", folder / "real"
        for one in (self.at, self.bin, real):
            one.mkdir(parents=True)
        # The other user must reach the folder.
        for one in (self.at, *self.at.parents[:-2]):
            one.chmod(0o755)
        open_to_all(self.at)
        (folder / "wrapper").write_text(WRAPPER % {"python": sys.executable, "real": str(real), "socket": str(folder / "socket")})
        (folder / "wrapper").chmod(0o755)
        found = {}
        for part in reversed(path.split(":")):
            found |= {one.name: one for one in pathlib.Path(part).glob("*") if os.access(one, os.X_OK) and one.is_file()}
        for name, one in (found | own).items():
            (real / name).symlink_to(one)
            (self.bin / name).symlink_to(folder / "wrapper")
        self.listens = socket.socket(socket.AF_UNIX)
        self.listens.bind(str(folder / "socket"))
        self.listens.listen(64)

    def write(self, name, text):
        """A file of the trial, which is closed to others."""
        with open(os.open(self.at / name, os.O_WRONLY | os.O_CREAT | os.O_EXCL, 0o600), "w") as file:
            file.write(text)

    def run(self, words, env, **more):
        """Runs the words in the folder. Returns the status, standard error, and what the other user has read: a text for each name of a file."""
        answer, ends = os.pipe(), os.pipe()
        spy = os.fork()
        if spy == 0:
            try:
                os.close(ends[1])
                self.spy(ends[0], answer[1])
            finally:
                os._exit(0)
        os.close(answer[1])
        os.close(ends[0])
        try:
            done = subprocess.run(words, cwd=self.at, env={**env, "PATH": str(self.bin)}, stdin=subprocess.DEVNULL, capture_output=True, timeout=120, **more)
        finally:
            os.close(ends[1])
            with open(answer[0]) as told:
                text = told.read()
            os.waitpid(spy, 0)
        return done.returncode, done.stderr.decode("utf-8", "backslashreplace"), json.loads(text)

    def spy(self, ends, answer):
        """The other user. He looks into the folder whenever a program asks him to. When `ends` is closed, he writes what he has read."""
        if os.getuid() == 0:
            os.setgroups([])
            os.setgid(NOBODY)
            os.setuid(NOBODY)
        held = {}
        while True:
            ready, _, _ = select.select([self.listens, ends], [], [])
            asks = self.listens.accept()[0] if self.listens in ready else None
            for folder, _, names in os.walk(self.at):
                for path in (os.path.join(folder, name) for name in names):
                    try:
                        found = os.lstat(path)
                        if stat.S_ISREG(found.st_mode) and found.st_ino not in held and (os.getuid() == NOBODY or found.st_mode & 0o004):
                            held[found.st_ino] = (path, os.open(path, os.O_RDONLY))
                    except OSError:
                        pass
            if not asks:
                break
            asks.close()
        read = [(os.path.relpath(path, self.at), os.read(file, 100).decode("latin1")) for path, file in held.values()]
        with open(answer, "w") as tells:
            json.dump({name: text for name, text in read if text}, tells)
