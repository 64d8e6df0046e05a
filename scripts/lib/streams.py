"""Ways to run a command with standard streams that no redirection makes.

Each is a function of `start`, which starts the command with the given streams in place of its usual ones. It returns the octets that the
command wrote, under the name of the file into which lib/rows.py puts them.
"""
import os, socket, struct, subprocess, time, tty

PIPE = os.O_NONBLOCK | os.O_CLOEXEC


def as_usual(start):
    start()


def beginning(file, count):
    with open(file, "rb") as it:
        return it.read(count)


def rest_of(descriptor):
    """Reads until the end, and closes the descriptor."""
    with open(descriptor, "rb") as it:
        return it.read()


# ---- standard inputs that fail after the first octets of a file


def hung_up(start, file, count):
    """Standard input is a terminal that is hung up."""
    terminal, line = os.openpty()
    tty.setraw(line)
    start(stdin=terminal)
    rest = beginning(file, count)
    while rest:
        rest = rest[os.write(line, rest):]
    os.close(line)
    os.close(terminal)


def unready(start, file, count, ends=False):
    """Standard input is a non-blocking pipe. Its writer keeps it open, but writes no more."""
    reading, writing = os.pipe2(PIPE)
    os.write(writing, beginning(file, count))
    if ends:
        os.close(writing)
    start(stdin=reading).wait()
    os.close(reading)
    if not ends:
        os.close(writing)


def ended(start, file, count):
    """Standard input is the same pipe without a writer. It ends, and does not fail."""
    unready(start, file, count, True)


def reset(start, file, count):
    """Standard input is a socket that its other end has reset. One read fails, and the next one is at the end."""
    near, far = socket.socketpair()
    far.sendall(beginning(file, count))
    # Closing an end that has unread octets resets the other end.
    near.send(b"unread")
    far.close()
    start(stdin=near)
    near.close()


# ---- standard outputs


def full(start, room):
    """Standard output is a non-blocking pipe with room for this many octets."""
    reading, writing = os.pipe2(PIPE)
    before = 0
    try:
        while True:
            before += os.write(writing, bytes(4096))
    except BlockingIOError:
        pass
    if room:
        before -= len(os.read(reading, room))
    start(stdout=writing).wait()
    os.close(writing)
    return {"out": rest_of(reading)[before:]}


def cut_off(start):
    """Standard output is a connection that its other end has reset."""
    with socket.create_server(("127.0.0.1", 0)) as server:
        near = socket.create_connection(server.getsockname())
        far, _ = server.accept()
    far.setsockopt(socket.SOL_SOCKET, socket.SO_LINGER, struct.pack("ii", 1, 0))
    far.close()
    start(stdout=near)
    near.close()


def to_pipe(start, count=-1):
    """Standard output is a pipe that is read to its end, or whose reader closes it after this many octets."""
    with start(stdout=subprocess.PIPE) as process:
        return {"out": process.stdout.read(count)}


def to_no_reader(start):
    """Standard output is a pipe that its reader has closed."""
    reading, writing = os.pipe()
    os.close(reading)
    start(stdout=writing)
    os.close(writing)


def on_terminal(start):
    """All three standard streams are one terminal."""
    terminal, line = os.openpty()
    start(stdin=line, stdout=line, stderr=line, has_terminal=True)
    os.close(line)
    came = b""
    try:
        while piece := os.read(terminal, 4096):
            came += piece
    except OSError:
        # Reading from a terminal that no process has open fails. It does not end.
        pass
    os.close(terminal)
    return {"out": came}


# ---- standard inputs that others read too, and files and pipes that change meanwhile


def leaving(start, file):
    """Standard input is a file. Returns what the command left unread."""
    reading = os.open(file, os.O_RDONLY)
    start(stdin=reading).wait()
    return {"left": rest_of(reading)}


def leaving_pipe(start, file, times=1):
    """Standard input is a pipe with the octets of the file. Returns what the command, or several runs of it, left unread."""
    reading, writing = os.pipe()
    with open(file, "rb") as it:
        os.write(writing, it.read())
    os.close(writing)
    for _ in range(times):
        if start(stdin=reading).wait():
            break
    return {"left": rest_of(reading)}


def by_named_pipes(start, file=None):
    """The octets of the file are written to the named pipe `into` meanwhile. Returns what the command writes to the named pipe `outof`."""
    feeder = subprocess.Popen(["timeout", "20", "sh", "-c", 'exec cat "$1" >into', "-", file]) if file else None
    with subprocess.Popen(["timeout", "20", "cat", "outof"], stdout=subprocess.PIPE) as reader:
        start()
        came = reader.stdout.read()
    if feeder:
        feeder.wait()
    return {"out": came}


def cutting(start, file, length):
    """Standard output is a pipe. When the first octet comes through it, the file is truncated to this length."""
    with start(stdout=subprocess.PIPE, bufsize=0) as process:
        first = process.stdout.read(1)
        os.truncate(file, length)
        return {"out": first + b"".join(iter(lambda: process.stdout.read(1 << 16), b""))}


def while_open(start, octets, output):
    """The named pipe `pipe` has these octets and stays open. Returns the first octet that the output has meanwhile."""
    writing = os.open("pipe", os.O_RDWR)
    os.write(writing, octets)
    start()
    for _ in range(100):
        if os.path.exists(output) and os.path.getsize(output):
            break
        time.sleep(0.1)
    came = beginning(output, 1) if os.path.exists(output) else b""
    os.close(writing)
    return {"out": came}
