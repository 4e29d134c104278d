"""Which part of a failed test's output says why it failed, as nextest finds it: the last panic's message, or the error
that the test returned."""

import re

# `thread 'main' panicked at src/lib.rs:5:9:`, in newer Rust with the thread's id behind its name.
PANICKED = re.compile(rb"^thread '[^\n]*?' (?:\(\d+\) )?panicked at ", re.M)
RETURNED = re.compile(rb"^Error: ", re.M)
# What follows a message: the note on backtraces, or a backtrace.
BEHIND = re.compile(rb"\n(?:note: |stack backtrace:)")
DID_NOT_PANIC = re.compile(rb"^note: test did not panic as expected.*$", re.M)


def highlight_in(stdout, stderr):
    """The stream, the offset in bytes and the text of what says why, or None where nothing fits."""
    for pattern in (PANICKED, RETURNED):
        found = [*pattern.finditer(stderr)]
        if found:
            start = found[-1].start()
            behind = BEHIND.search(stderr, found[-1].end())
            return "err", start, stderr[start : behind.start() if behind else None].rstrip()
    found = DID_NOT_PANIC.search(stdout)
    return ("out", found.start(), found[0].rstrip()) if found else None
