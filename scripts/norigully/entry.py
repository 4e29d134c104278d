"""How each script begins and ends: its standard descriptors are there, a signal ends what it started and removes its
folders, what it writes is written whole, and a fault is one line and a status."""

import contextlib
import os
import re
import select
import signal
import sys
import time

NOT_BUILT, WRONG, FAILED = 1, 2, 3
# The standard descriptors.
INPUT, OUTPUT, ERROR = range(3)
# What changes a terminal, or ends a line, in the name of a file.
CONTROL = re.compile("[\x00-\x1f\x7f-\x9f\u2028\u2029]")
# So long a process has to end by itself, in seconds.
GRACE = 10.0
TICK = 0.02
# The signals that came, and the standard descriptors that were closed.
CAME: list[int] = []
CLOSED: list[int] = []
# Those that end a script, and an entry for each part of it under way that none cuts.
ENDING = (signal.SIGINT, signal.SIGTERM, signal.SIGHUP, signal.SIGQUIT)
UNCUT: list[int] = []


class Bad(Exception):
    """What is wrong with the words or with what was read."""


class NotBuilt(Exception):
    """What is missing that must be built first."""


class NotWritten(OSError):
    """An output takes no more."""


class Signal(BaseException):
    """A signal that ends the script."""


def run(name, work):
    """Does the work of a script of this name and ends it: with what the work returns, or in one line."""
    fill_standard_descriptors()
    try:
        try:
            on_signals(unwind)
            status = status_of(name, work)
        finally:
            # What comes now comes too late to end anything.
            on_signals(CAME.append)
    except Signal:
        status = 128 + CAME[0]
    sys.exit(flushed(name, status))


def status_of(name, work):
    """Does the work, and returns its status; a fault is one line."""
    try:
        return work()
    except (Bad, RecursionError) as error:
        return fault(name, error if isinstance(error, Bad) else "its input is nested too deeply", WRONG)
    except NotBuilt as error:
        return fault(name, error, NOT_BUILT)
    except MemoryError:
        return fault(name, "out of memory", FAILED)
    except NotWritten:
        return fault(name, "write failed", FAILED)
    except OSError as error:
        # One that names no file is of an output.
        is_read = error.filename is not None
        return fault(name, *((unread(error.filename, error), WRONG) if is_read else ("write failed", FAILED)))


def flushed(name, status):
    """The status, once what was printed is written."""
    try:
        if sys.stdout:
            sys.stdout.flush()
    except OSError:
        os.dup2(os.open(os.devnull, os.O_WRONLY), OUTPUT)
        return status or fault(name, "write failed", FAILED)
    return status


def on_signals(call):
    """Makes a call with the number of each signal that comes, but for one that is ignored, as by `nohup`."""
    for number in ENDING:
        if signal.getsignal(number) is not signal.SIG_IGN:
            signal.signal(number, lambda number, _frame: call(number))


def unwind(number):
    """The first signal ends the script by way of all that it has to leave."""
    CAME.append(number)
    if len(CAME) == 1 and not UNCUT:
        raise Signal


@contextlib.contextmanager
def uncut():
    """A signal that comes in here ends the script behind it."""
    came = len(CAME)
    UNCUT.append(came)
    try:
        yield
    finally:
        UNCUT.pop()
        if came == 0 < len(CAME) and not UNCUT:
            raise Signal


@contextlib.contextmanager
def folder(**how):
    """A temporary folder, of which a signal leaves nothing, nor does a process that can open no more files: to remove
    it takes two."""
    # ./run imports this each time, and mostly makes no folder.
    import tempfile

    made, spare = tempfile.TemporaryDirectory(**how), []
    try:
        with contextlib.suppress(OSError):
            spare += [os.open("/", os.O_RDONLY) for _ in range(2)]
        yield made.name
    finally:
        with uncut():
            for it in spare:
                os.close(it)
            made.cleanup()


def fill_standard_descriptors():
    """Opens a folder in the place of each standard descriptor that is closed, as the programs do: it can be neither
    read nor written. What is opened gets the lowest free number, so without this a file could be standard output."""
    while (opened := os.open("/", os.O_RDONLY)) <= ERROR:
        CLOSED.append(opened)
    os.close(opened)
    # Without it `print` takes standard output.
    sys.stderr = sys.stderr or open(os.devnull, "w")


def encoded(text):
    """The bytes of a text, in which bytes that are not UTF-8 are surrogates, whatever the locale is."""
    try:
        return text.encode()
    except UnicodeEncodeError:
        return re.sub("[\ud800-\udc7f\udd00-\udfff]", "\ufffd", text).encode("utf-8", "surrogateescape")


def fault(name, what, status):
    """Says what is wrong in one line, and returns the status."""
    with contextlib.suppress(OSError):
        write(CONTROL.sub(lambda found: repr(found[0])[1:-1], f"{name}: {what}") + "\n", ERROR)
    return status


def write(text, to=OUTPUT):
    """Writes all of it to a descriptor, which may be one that does not block."""
    rest = memoryview(encoded(text) if isinstance(text, str) else text)
    while rest:
        try:
            rest = rest[os.write(to, rest) :]
        except BlockingIOError:
            select.select([], [to], [])
        except OSError as error:
            raise NotWritten(*error.args) from error


def write_all(pieces, to=OUTPUT):
    """Writes these one after another."""
    for piece in pieces:
        write(piece, to)


def lines_of(path):
    """The lines of a file, or of standard input for `-`, each as it comes."""
    held = []
    for piece in pieces_of(path):
        *whole, rest = piece.split(b"\n")
        if whole:
            yield b"".join([*held, whole[0], b"\n"])
            yield from [line + b"\n" for line in whole[1:]]
            held = []
        held.append(rest)
    if any(held):
        yield b"".join(held)


def pieces_of(path):
    """The bytes of a file, or of standard input for `-`, as they come."""
    try:
        with open(INPUT if path == "-" else path, "rb", buffering=0, closefd=path != "-") as file:
            while (piece := file.read(1 << 20)) != b"":
                if piece is None:
                    # It does not block.
                    select.select([file], [], [])
                else:
                    yield piece
    except OSError as error:
        if path == "-":
            raise Bad(f"cannot read standard input: {'it is closed' if INPUT in CLOSED else error.strerror}") from error
        raise Bad(unread(path, error)) from error


def unread(path, error):
    return f"cannot read {path}: {error.strerror}"


def is_same_file(path, other):
    """Whether writing the one would change the other, by whatever paths or descriptors; one that is a pipe or a device
    is not emptied."""
    with contextlib.suppress(OSError):
        return os.path.isfile(path) and os.path.samefile(path, other)
    return False


@contextlib.contextmanager
def started(command, **how):
    """A process that ends with all that it started where this is left by a fault or a signal."""
    import subprocess

    child = None
    try:
        # A signal that comes before it has begun comes behind that.
        with uncut():
            child = subprocess.Popen(command, start_new_session=True, **how)
        yield child
    except BaseException as error:
        if child is not None:
            with uncut():
                end(child)
        elif isinstance(error, OSError):
            # The file that is missing, or the folder where it is to run.
            raise NotBuilt(f"cannot run {os.fsdecode(error.filename or command[0])}: {error.strerror}") from error
        raise
    finally:
        if child is not None:
            # It closes its pipes, and waits for it.
            child.__exit__(None, None, None)


def end(child):
    """Ends a process and what it started: by SIGTERM, and by SIGKILL after a grace or a second signal."""
    send(child, signal.SIGTERM)
    until = time.monotonic() + GRACE
    while child.poll() is None and time.monotonic() < until and len(CAME) < 2:
        time.sleep(TICK)
    # What is left is gone before its folders are removed.
    while left := [*session_of(child)]:
        for pid in left:
            with contextlib.suppress(ProcessLookupError):
                os.kill(pid, signal.SIGKILL)
        time.sleep(TICK)


def session_of(child):
    """The processes that a process began and that are in its session, itself too."""
    for pid in filter(str.isdecimal, os.listdir("/proc")):
        with contextlib.suppress(OSError), open(f"/proc/{pid}/stat", "rb") as file:
            state, _, _, session = file.read().rpartition(b")")[2].split()[:4]
            if int(session) == child.pid and state != b"Z":
                yield int(pid)


def send(child, number):
    """Sends a signal to a process and to what it started, unless they are gone."""
    with contextlib.suppress(ProcessLookupError):
        os.killpg(child.pid, number)
