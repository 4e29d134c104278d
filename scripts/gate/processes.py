"""The scripts that ./test starts. Where a signal or a fault ends ./test, all of them end, with what they started."""

import contextlib
import os
import shlex
import signal
import subprocess
import sys
import threading
import time
from concurrent.futures import ThreadPoolExecutor

from norigully import TOP, entry

# The tests of tests/, which are no script of scripts/.
TESTS = "unit tests"
# So long a thread has to end, once what it waits for has.
SECOND = 1.0
# A Ctrl-C reaches all that this starts, too. It is ended from here, so that one line says so, and not one of each.
DEAF = ("sh", "-c", 'trap "" INT; exec "$0" "$@"')


def start(command, **how):
    """Starts a command, unless a signal has ended this."""
    if entry.CAME:
        raise entry.Signal
    how = {"stdin": subprocess.DEVNULL, "stdout": subprocess.PIPE, "stderr": subprocess.STDOUT, "cwd": TOP, **how}
    return subprocess.Popen([*DEAF, *command], text=True, errors="replace", **how)


def script(words, *more, first=()):
    """Starts a script: its name with its words, as a shell reads them, and more words as they are."""
    command = [sys.executable, "-m", "tests"] if words == TESTS else shlex.split(f"scripts/{words}")
    return start([*first, *command, *map(str, more)])


def end(ran):
    """Waits for a process, and returns its status and the processor seconds that it took, with all that it ran."""
    _, status, used = os.wait4(ran.pid, 0)
    ran.returncode = os.waitstatus_to_exitcode(status)
    return ran.returncode, used.ru_utime + used.ru_stime


def said_by(words, *more):
    """Runs a script to its end, and returns its status, the processor seconds that it took, and what it said."""
    ran = script(words, *more)
    said = ran.stdout.read()
    return *end(ran), said


class Relay(threading.Thread):
    """A script whose lines are passed on as they come, until a signal comes."""

    def __init__(self, words, *more, first=()):
        super().__init__(daemon=True)
        self.ran, self.said, self.fault = script(words, *more, first=first), [], None
        self.start()

    def run(self):
        try:
            for line in self.ran.stdout:
                self.said.append(line)
                if not entry.CAME:
                    print(line, end="", flush=True)
        except OSError as error:
            self.fault = error
            self.ran.kill()

    def end(self):
        """Waits for its end, and returns the status and the processor seconds."""
        self.join()
        ended = end(self.ran)
        if self.fault:
            raise self.fault
        return ended


@contextlib.contextmanager
def workers(count):
    """So many threads that run scripts. Where this is left by a signal or a fault, the scripts end, and then the
    threads; but one may wait for the lock of another run."""
    pool, before = ThreadPoolExecutor(count), {*threading.enumerate()}
    try:
        yield pool
    except BaseException:
        pool.shutdown(wait=False, cancel_futures=True)
        end_all()
        for thread in {*threading.enumerate()} - before:
            thread.join(SECOND)
        raise
    pool.shutdown()


@contextlib.contextmanager
def ending_all():
    """Ends all that was started where this is left by a signal or a fault."""
    try:
        yield
    except BaseException:
        end_all()
        raise


def end_all():
    """Ends all that this process started: by SIGTERM, and by SIGKILL after a grace or a second signal. What is stopped
    first starts nothing meanwhile."""
    found = set()
    while new := descendants() - found:
        send(signal.SIGSTOP, new)
        found |= new
    send(signal.SIGTERM, found)
    send(signal.SIGCONT, found)
    until = time.monotonic() + entry.GRACE
    while found := {pid for pid in found if state_of(pid)} | descendants():
        if time.monotonic() > until or len(entry.CAME) > 1:
            send(signal.SIGKILL, found)
        time.sleep(entry.TICK)


def descendants():
    """The processes that this one started, and those that these did."""
    states = {int(pid): state_of(pid) for pid in filter(str.isdecimal, os.listdir("/proc"))}
    found, new = set(), {os.getpid()}
    while new := {pid for pid, state in states.items() if state and int(state[1]) in new}:
        found |= new
    return found


def state_of(pid):
    """The state of a process and its parent; None where it has ended."""
    with contextlib.suppress(OSError), open(f"/proc/{pid}/stat", "rb") as file:
        state = file.read().rpartition(b")")[2].split()[:2]
        return None if state[0] in (b"Z", b"X") else state
    return None


def send(number, pids):
    for pid in pids:
        with contextlib.suppress(ProcessLookupError):
            os.kill(pid, number)
