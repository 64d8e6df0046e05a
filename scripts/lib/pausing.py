"""Runs a program that pauses before each call of the C library by which it reaches files (lib/pause.c). Between two calls the trial does what another
process could do there: it puts a link in the place of a name, or looks what other users can read now.

A spy is another user. Whenever the trial asks him to, he opens each file of a folder that he can open, and keeps it open. At the end he tells
what is in them: a mode that comes too late helps nothing.
"""
import json, os, pathlib, re, resource, socket, stat, struct, subprocess, tempfile, threading

# The tags of the entries of an ACL (acl(5)).
OWNER, USER, GROUP_OF_FILE, GROUP, MASK, OTHER = 1, 2, 4, 8, 16, 32
ACCESS, DEFAULT = "system.posix_acl_access", "system.posix_acl_default"
# The functions of the C library that reach a file by its name, or change who may open it.
REACHES = r"_*(f?open|creat|l?stat|stat|[lf]?x?stat|fstat|statx|access|chmod|chown|rename|link|unlink|symlink|truncate|readlink|mk|rm|[fl]?(get|set|remove|list)xattr|sendfile|copy_file|syscall)"


def acl(**entries):
    """The octets of an ACL, as Linux keeps it. An entry is `owner`, `group`, `other`, `mask`, or `u` or `g` with a number, and has permissions
    from 0 to 7."""
    tags = {"owner": OWNER, "group": GROUP_OF_FILE, "mask": MASK, "other": OTHER, "u": USER, "g": GROUP}
    found = []
    for name, rights in entries.items():
        kind = name.rstrip("0123456789")
        found.append((tags[kind], rights, int(name[len(kind):] or 0xFFFFFFFF)))
    return struct.pack("<I", 2) + b"".join(struct.pack("<HHI", *one) for one in sorted(found))


def has_acls(folder):
    """Whether files of this folder can have ACLs."""
    try:
        with tempfile.NamedTemporaryFile(dir=folder) as file:
            os.setxattr(file.name, ACCESS, acl(owner=6, u61003=6, group=0, mask=6, other=0))
        return True
    except OSError:
        return False


class Spy:
    """Another user: his number, his group and his other groups."""

    def __init__(self, user, group, more=()):
        self.here, there = socket.socketpair()
        self.process = os.fork()
        if self.process == 0:
            try:
                self.here.close()
                os.setgroups(list(more))
                os.setgid(group)
                os.setuid(user)
                self.serve(there.makefile("rw"))
            finally:
                os._exit(0)
        there.close()
        self.stream = self.here.makefile("rw")

    @staticmethod
    def serve(stream):
        held = {}
        for line in stream:
            folder = line[:-1]
            if folder == "end":
                return
            if folder:
                Spy.open_all(folder, held)
                answer = ""
            else:
                answer = json.dumps([(path, os.pread(files[os.O_RDONLY], 10000, 0).decode("latin1") if os.O_RDONLY in files else None, os.O_WRONLY in files) for path, files in held.values()])
                for _, files in held.values():
                    for file in files.values():
                        os.close(file)
                held = {}
            stream.write(answer + "\n")
            stream.flush()

    @staticmethod
    def open_all(folder, held):
        try:
            entries = list(os.scandir(folder))
        except OSError:
            return
        for entry in entries:
            try:
                found = entry.stat(follow_symlinks=False)
            except OSError:
                continue
            if stat.S_ISDIR(found.st_mode):
                Spy.open_all(entry.path, held)
            elif stat.S_ISREG(found.st_mode):
                for how in (os.O_RDONLY, os.O_WRONLY):
                    if how not in held.get(found.st_ino, ("", {}))[1]:
                        try:
                            file = os.open(entry.path, how | os.O_NOFOLLOW | os.O_NONBLOCK)
                        except OSError:
                            continue
                        held.setdefault(found.st_ino, (entry.path, {}))[1][how] = file

    def look(self, folder):
        self.stream.write(f"{folder}\n")
        self.stream.flush()
        self.stream.readline()

    def tell(self):
        """What he has opened since he last told it: the path of each file, what it holds or None, and whether he can write it."""
        self.stream.write("\n")
        self.stream.flush()
        return json.loads(self.stream.readline())

    def end(self):
        self.stream.write("end\n")
        self.stream.close()
        self.here.close()
        os.waitpid(self.process, 0)


class Pausing:
    """The library, made in this folder."""

    def __init__(self, folder):
        self.library = folder / "pause.so"
        subprocess.run(["cc", "-shared", "-fPIC", "-O2", "-o", self.library, pathlib.Path(__file__).with_name("pause.c"), "-ldl"], check=True, capture_output=True)
        self.library.chmod(0o755)

    def unseen(self, program):
        """The functions that reach files, and that the program calls without a pause."""
        def names(which, path):
            lines = subprocess.run(["nm", "-D", which, path], check=True, capture_output=True, text=True).stdout.split("\n")
            return {line.split()[-1].partition("@")[0] for line in lines if line}

        return sorted(name for name in names("--undefined-only", program) - names("--defined-only", self.library) if re.match(REACHES, name))

    def run(self, words, folder, before, user=(0, 0, ()), most=64 << 20):
        """Runs the words in the folder, as this user with his group and other groups. Before each call `before(number, function, flags, name)` is
        called, with the number from 1. A name below /proc/self is told as it is for the trial. Returns the status and standard error. The program may have
        this much address space."""
        tells, told = os.pipe()
        waits, goes_on = os.pipe()
        env = {"LD_PRELOAD": str(self.library), "TELLS": str(told), "WAITS": str(waits), "LC_ALL": "C.UTF-8"}
        with tempfile.TemporaryFile() as errors:
            limit = lambda: resource.setrlimit(resource.RLIMIT_AS, (most, most))
            process = subprocess.Popen(words, cwd=folder, env=env, stdin=subprocess.DEVNULL, stdout=subprocess.DEVNULL, stderr=errors, pass_fds=(told, waits), preexec_fn=limit,
                user=user[0], group=user[1], extra_groups=list(user[2]), umask=0o022)
            os.close(told)
            os.close(waits)
            # What never ends is ended, so that the trial goes on.
            watch = threading.Timer(60, process.kill)
            watch.start()
            try:
                with open(tells, encoding="utf-8", errors="surrogateescape") as lines:
                    for number, line in enumerate(lines, 1):
                        function, flags, name = line.removesuffix("\n").split(" ", 2)
                        before(number, function, int(flags) if flags != "-" else None, re.sub("^/proc/self/", f"/proc/{process.pid}/", name))
                        os.write(goes_on, b".")
                status = process.wait()
            finally:
                watch.cancel()
                os.close(goes_on)
                process.kill()
                process.wait()
            errors.seek(0)
            return status, errors.read().decode("utf-8", "backslashreplace").strip()
