"""Rows of a table of runs of the program. Tries a row with its files, streams and limits, in the folder of the script."""
import dataclasses, fcntl, os, re, resource, shutil, signal, subprocess, sys, termios

from lib import streams
from lib.trial import check, program

JOSE = program(sys.argv[1:])
# A build of the program that has lib/fail.c in itself, if the second word names one. Otherwise fail.c is loaded before the program.
FAILING = program(sys.argv[2:]) if sys.argv[2:] else None
FLAGS = {"<": os.O_RDONLY, ">": os.O_WRONLY | os.O_CREAT | os.O_TRUNC, ">>": os.O_WRONLY | os.O_CREAT | os.O_APPEND, "<>": os.O_RDWR | os.O_CREAT}


@dataclasses.dataclass
class Row:
    """A run of the program, and its expected results."""
    name: str
    words: object = None        # a list, or a text that is split at blanks, in which '' is the empty word
    refusal: str = ""           # the line on standard error without `jose: `; without a refusal the status is 0 and standard error is empty
    files: dict = dataclasses.field(default_factory=dict)   # the expected files after the run, as `agrees` reads them
    folder: dict = None         # the files of a new folder, in which the program runs; only those of `files` may differ there afterwards
    streams: str = ""           # redirections, as in a shell; by default input is /dev/null, and output goes to the file `out`
    way: tuple = ()             # a function of lib/streams.py with its arguments, for streams that no redirection makes
    given: dict = dataclasses.field(default_factory=dict)   # files that are made before the run
    then: dict = dataclasses.field(default_factory=dict)    # checks after the run: the name of each, with a file and what `agrees` reads
    status: int = None          # the status, if it does not follow from the refusal
    errors: bytes = None        # standard error, if it does not follow from the refusal
    inside: str = "."           # the folder in which the program runs, if it is not a new one
    umask: int = 0o022
    room: int = None            # the limit on the size of a file, in KiB
    descriptors: int = None     # the limit on open descriptors
    failing: dict = None        # the calls that fail, in the words of lib/fail.c
    as_user: bool = False       # runs the copy of the program in the folder, as a user other than root
    shell: list = None          # the command of a shell, which runs the program as "$jose"


class Soft(str):
    """A symbolic link to this name."""


class Hard(str):
    """A hard link to the file of this name."""


def read(file):
    with open(file, "rb") as it:
        return it.read()


def make(file, wanted):
    """Makes a file with these octets, or with a mode and octets, or a link, or a folder. A function returns one of these. None removes the
    file."""
    if callable(wanted):
        wanted = wanted()
    if os.path.lexists(file) and isinstance(wanted, (Soft, Hard, type(None))):
        os.remove(file)
    if isinstance(wanted, Soft):
        os.symlink(wanted, file)
    elif isinstance(wanted, Hard):
        os.link(os.path.join(os.path.dirname(file), wanted), file)
    elif isinstance(wanted, dict):
        shutil.rmtree(file, ignore_errors=True)
        os.mkdir(file)
        for name, it in wanted.items():
            make(os.path.join(file, name), it)
    elif wanted is not None:
        mode, octets = wanted if isinstance(wanted, tuple) else (None, wanted)
        with open(file, "wb") as it:
            it.write(octets)
        if mode is not None:
            os.chmod(file, mode)


def state_of(folder):
    """The files of a folder: for each the target of a symbolic link, or the mode and the octets."""
    return {it.name: os.readlink(it) if it.is_symlink() else (it.stat().st_mode & 0o7777, read(it)) for it in os.scandir(folder)}


def shown(state):
    return f"{state[1][:200]!r} of mode {state[0]:o}" if isinstance(state, tuple) else str(state)


def agrees(file, wanted):
    """Whether a file is as wanted. `wanted` may be its octets, the name of a file with the same octets, its mode, the files of a folder, a
    function that is true of its octets, or None if the file must not exist."""
    if wanted is None or not os.path.exists(file):
        return wanted is None and not os.path.lexists(file)
    if isinstance(wanted, int):
        return os.stat(file).st_mode & 0o7777 == wanted
    if isinstance(wanted, dict):
        return {name: octets for name, (_, octets) in state_of(file).items()} == wanted
    octets = read(file)
    return bool(wanted(octets)) if callable(wanted) else octets == (read(wanted) if isinstance(wanted, str) else wanted)


def opened(redirections, folder):
    """The descriptors of the standard streams, and the numbers of those that are closed."""
    found, closed = [os.open(os.devnull, FLAGS["<"]), os.open("out.new", FLAGS[">"]), os.open("errors", FLAGS[">"])], []
    for number, how, file in re.findall(r"(\d?)(<>|>>|[<>])(\S+)", redirections):
        stream = int(number or how.startswith(">"))
        if file == "&-":
            closed.append(stream)
        else:
            os.close(found[stream])
            found[stream] = os.open(os.path.join(folder, file), FLAGS[how], 0o666)
    return found, closed


def failing_program():
    return FAILING or JOSE


def preloaded():
    """The variable that loads lib/fail.c before the program, if this is not in it."""
    return {} if FAILING else {"LD_PRELOAD": os.path.abspath("fail.so")}


def run(row, folder):
    """Runs the program in a folder. Returns the status and standard error."""
    words = row.words.split(" ") if isinstance(row.words, str) else row.words
    command = row.shell or ["./jose" if row.as_user else failing_program() if row.failing else JOSE, *("" if it == "''" else it for it in words)]
    descriptors, closed = opened(row.streams, folder)
    env = os.environ | {"jose": JOSE} | (row.failing | preloaded() if row.failing else {})
    user = {"user": 65534, "group": 65534, "extra_groups": []} if row.as_user and os.getuid() == 0 else {}
    running = []

    def start(has_terminal=False, **others):
        def prepare():
            os.umask(row.umask)
            if has_terminal:
                fcntl.ioctl(0, termios.TIOCSCTTY, 0)
            if row.room:
                signal.signal(signal.SIGXFSZ, signal.SIG_IGN)
                resource.setrlimit(resource.RLIMIT_FSIZE, (row.room << 10, row.room << 10))
            if row.descriptors:
                resource.setrlimit(resource.RLIMIT_NOFILE, (row.descriptors, row.descriptors))
            for stream in closed:
                os.close(stream)

        usual = dict(zip(("stdin", "stdout", "stderr"), descriptors))
        running.append(subprocess.Popen(command, cwd=folder, env=env, preexec_fn=prepare, start_new_session=has_terminal, **usual | others, **user))
        return running[-1]

    way, *arguments = row.way or (streams.as_usual,)
    came = way(start, *arguments)
    status = running[-1].wait()
    for descriptor in descriptors:
        os.close(descriptor)
    os.replace("out.new", "out")
    for file, octets in (came or {}).items():
        make(file, octets)
    return status, read("errors")


def play(rows):
    """Tries the rows in their order. Each finds the files that those before it left."""
    for row in rows:
        for file, wanted in row.given.items():
            make(file, wanted)
        if row.folder is not None:
            make("copy", row.folder)
            before = state_of("copy")
        status, errors = run(row, row.inside if row.folder is None else "copy")
        line = f"jose: {row.refusal}\n".encode() if row.refusal else b""
        right = bool(row.refusal) if row.status is None else row.status, line if row.errors is None else row.errors
        problems = [] if (status, errors) == right else [f"status {status}, {errors[:1000]!r}"]
        if row.folder is None:
            problems += [f"{file} is not as it should be" for file, wanted in row.files.items() if not agrees(file, wanted)]
        else:
            kept = (tuple, Soft, type(None))
            wanted = before | {name: it if isinstance(it, kept) else (0o644, it) for name, it in row.files.items()}
            found = state_of("copy")
            problems += [f"{it} is {shown(found.get(it))}" for it in sorted({*wanted, *found}) if wanted.get(it) != found.get(it)]
        check(row.name, problems)
        for name, (file, wanted) in row.then.items():
            check(name, [] if agrees(file, wanted) else [f"{file} is not as it should be"])


# ---- functions that are true of the wanted octets


def other_than(file):
    """True of any octets except those of this file."""
    return lambda octets: octets != read(file)


def first(count, file):
    """True of exactly this many of the first octets of this file."""
    return lambda octets: octets == read(file)[:count]


def part_of(file, least=1):
    """True of a beginning of this file that has at least this many octets and is not the whole."""
    return lambda octets: least <= len(octets) < os.path.getsize(file) and read(file).startswith(octets)
