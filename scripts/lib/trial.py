"""Shared by the Python scripts: the paths of the repository and of the program, and the counts of what passed and failed."""
import os, pathlib, re, subprocess, sys, threading, time

TOP = pathlib.Path(__file__).resolve().parents[2]
# The program that `make build` made, or another build in its place.
PROGRAM = pathlib.Path(os.environ.get("JOSE_PROGRAM") or TOP / "crates/command/out/command")
# The program of the proved tools that it made, and the names of these tools.
TOOLBOX, BUILT_TOOLS = TOP / "crates/toolbox/out/toolbox", ("jose-look", "jose-set", "jose-verify-all")
# The folder of the library for C that it made.
LIBRARY = TOP / "crates/lakhdzeva/out/built"
# The stream to which the lines are written.
out = sys.stdout
passed = failed = omitted = 0
# Threads may count at the same time.
COUNTING = threading.RLock()


def needs(program):
    """Ends the script if the program is not built."""
    if not os.access(program, os.X_OK):
        sys.exit("run make build first")


def program(words):
    """The path in the first of these words, or else that of the program that `make build` made. Ends the script if it is not there."""
    path = os.path.abspath(words[0]) if words else str(PROGRAM)
    needs(path)
    return path


def space_at_start(program, folder):
    """The octets of address space that the program takes at its start. They are read while a command waits for a pipe in the folder."""
    os.mkfifo(folder / "idle")
    process = subprocess.Popen([program, "b64", "enc", "-I", "idle", "-o", os.devnull], cwd=folder)
    while process.poll() is None:
        try:
            pipe = os.open(folder / "idle", os.O_WRONLY | os.O_NONBLOCK)
        except OSError:
            # The program has not opened it yet.
            time.sleep(0.01)
            continue
        status = pathlib.Path(f"/proc/{process.pid}/status").read_text()
        os.close(pipe)
        process.wait()
        return int(re.search(r"^VmPeak:\s*(\d+) kB$", status, re.M)[1]) << 10
    sys.exit("the program does not read its input")


def works(function, *arguments):
    """Whether the function succeeds on this machine."""
    try:
        return bool(function(*arguments))
    except (OSError, subprocess.SubprocessError):
        return False


def tell(line):
    print(line, file=out, flush=True)


def passes(what):
    global passed
    with COUNTING:
        passed += 1
        tell(f"ok: {what}")


def fails(what):
    global failed
    with COUNTING:
        failed += 1
        tell(f"FAILED: {what}")


def check(what, problems):
    """Counts this as failed if there are problems, and otherwise as passed."""
    fails(f"{what}: {'; '.join(problems)}") if problems else passes(what)


def left_out(what, why):
    """Prints that this is not tried on this machine, and counts it. That is no failure, unless more is left out than MOST_LEFT_OUT says."""
    global omitted
    with COUNTING:
        omitted += 1
        tell(f"left out: {what}, since {why}")


def end():
    """Prints the last line of the script, and ends the script."""
    tell(f"{passed} passed, {failed} failed" + (f", {omitted} left out" if omitted else ""))
    sys.exit(failed != 0 or omitted > int(os.environ.get("MOST_LEFT_OUT", omitted)))
