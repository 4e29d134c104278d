"""The process of one attempt of a test: what it wrote, how it ended, and nextest's times: when it is slow, when it is
ended for that, how long it then has, and how long its pipes may stay open behind it."""

import os
import selectors
import signal
import subprocess
import time
from contextlib import suppress

from norigully.entry import TICK, encoded, send
from norigully.panics import highlight_in
from norigully.scene_lines import Attempt, signal_result

# Results with which a test has passed.
PASSED = ("pass", "leak")
PIECE = 1 << 16
NO_MEMORY = ["cannot keep what the test wrote", "out of memory"]


class Clock:
    """The seconds that tests have had: those between Ctrl-Z and what continues the script are not among them."""

    def __init__(self):
        # The time at which the script was stopped, if it is, and the seconds for which it was before.
        self.stopped = None, 0.0

    def now(self):
        at, before = self.stopped
        return (time.monotonic() if at is None else at) - before

    def stop(self, processes):
        """Stops these and the script itself, until something continues it. Each is in a session of its own, where only
        SIGSTOP stops it."""
        began, (_, before) = time.monotonic(), self.stopped
        self.stopped = began, before
        for it in processes:
            send(it.child, signal.SIGSTOP)
        os.kill(os.getpid(), signal.SIGSTOP)
        for it in processes:
            send(it.child, signal.SIGCONT)
        self.stopped = None, before + time.monotonic() - began


class Process:
    """A process that runs in a session of its own."""

    def __init__(self, command, folder, environment, options, clock):
        self.options, self.clock, self.began = options, clock, clock.now()
        self.ended, self.periods, self.is_late, self.kill_at = None, 0, False, float("inf")
        self.errors, self.is_leaky, self.taken = None, False, 0.0
        self.child = subprocess.Popen(
            [encoded(it) for it in command],
            cwd=encoded(folder),
            env={encoded(key): encoded(value) for key, value in environment.items()},
            start_new_session=True,
            stdin=subprocess.DEVNULL,
            stdout=subprocess.PIPE,
            stderr=subprocess.PIPE,
        )
        self.wrote = {self.child.stdout: bytearray(), self.child.stderr: bytearray()}

    def end(self, number):
        """Sends it a signal that is to end it, and SIGKILL after a grace. Another thread may ask for it."""
        if self.ended is None:
            number = number if self.options.grace_period > 0 else signal.SIGKILL
            self.kill_at = min(self.kill_at, self.clock.now() + self.options.grace_period)
            send(self.child, number)

    def wait(self, tell_slow):
        """Reads what it writes until it has ended and its pipes are closed, or stay open for longer than a leak may
        last. A call is made each time that it is slow once more: with the time so far, and whether it is ended."""
        with selectors.DefaultSelector() as open_pipes:
            for pipe in self.wrote:
                open_pipes.register(pipe, selectors.EVENT_READ)
            while not self.is_over(open_pipes):
                if open_pipes.get_map():
                    for key, _ in open_pipes.select(TICK):
                        self.read(key.fileobj, open_pipes)
                else:
                    with suppress(subprocess.TimeoutExpired):
                        self.child.wait(TICK)
                self.look(tell_slow)
            self.is_leaky, self.taken = bool(open_pipes.get_map()), self.clock.now() - self.began
        for pipe in self.wrote:
            pipe.close()

    def is_over(self, open_pipes):
        is_waiting = self.ended is None or self.clock.now() < self.ended + self.options.leak_timeout
        return self.ended is not None and not (open_pipes.get_map() and is_waiting)

    def read(self, pipe, open_pipes):
        piece = os.read(pipe.fileno(), PIECE)
        if not piece:
            open_pipes.unregister(pipe)
        elif self.errors is None:
            self.keep(pipe, piece)

    def keep(self, pipe, piece):
        """Keeps what it wrote, unless that is too much: then it ends."""
        most = self.options.max_output
        if sum(map(len, self.wrote.values())) + len(piece) > most * 10**6:
            self.errors = ["cannot keep what the test wrote", f"it is more than the {most:g} MB of --max-output"]
        try:
            self.wrote[pipe] += piece
        except MemoryError:
            self.forget()
        if self.errors:
            self.end(signal.SIGTERM)

    def forget(self):
        """Leaves out what it wrote, for which there is no memory."""
        self.wrote = {pipe: bytearray() for pipe in self.wrote}
        self.errors = NO_MEMORY

    def look(self, tell_slow):
        """Looks at the clock, and whether it has ended."""
        now = self.clock.now()
        if self.ended is None and self.child.poll() is not None:
            self.ended = now
        if self.ended is not None:
            return
        if now >= self.kill_at:
            send(self.child, signal.SIGKILL)
        taken, timeout = now - self.began, self.options.timeout
        if not self.is_late and taken >= min(self.options.slow * (self.periods + 1), timeout):
            self.periods, self.is_late = self.periods + 1, taken >= timeout
            tell_slow(taken, self.is_late)
            if self.is_late:
                self.end(signal.SIGTERM)

    def result(self):
        """How it ended. As nextest has it, what cannot be read of a test makes it one that could not be executed."""
        if self.errors:
            return "exec"
        if self.is_late:
            return "tmout"
        code, leak = self.child.returncode, "+leak" if self.is_leaky else ""
        if code < 0:
            return signal_result(-code).replace(":", f"{leak}:", 1)
        return f"fail{leak}:{code}" if code else "leak" if leak else "pass"

    def attempt(self):
        """The attempt that it was, once it is over."""
        try:
            return self.kept_attempt()
        except MemoryError:
            self.forget()
            return self.kept_attempt()

    def kept_attempt(self):
        result, (stdout, stderr) = self.result(), map(bytes, self.wrote.values())
        highlight = None if result in PASSED or self.errors else highlight_in(stdout, stderr)
        how = {"is_slow": self.periods > 0, "errors": self.errors, "highlight": highlight}
        return Attempt(result, self.taken, stdout, stderr, **how)
