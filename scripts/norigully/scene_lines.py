"""Lines of scenes: what the scripts that make scenes share. No other script knows the format (docs/SCENES.md).

`text` spells a text, `words` a list of them, `attempt` an attempt of a test, and `Run` writes the lines of a run, each
with the statistics after it. The statistics follow nextest's `RunStats`; each rule is stated where it is used.
"""

import re
import signal
import tempfile
from decimal import ROUND_HALF_UP, Decimal

from norigully.entry import encoded

NAMED = {"\n": "\\n", "\t": "\\t", "\r": "\\r", "\x1b": "\\e", "\\": "\\\\"}
# What is escaped: an output's bytes that are not UTF-8 are surrogates in a text of Python.
SPELLED = re.compile("[\x00-\x1f\x7f\\\\\ud800-\udfff]")
ESCAPE = re.compile(rb"\\(?:[ntre\\]|x([0-9a-fA-F]{2}))")
# Seconds as most tools write them.
USUAL = re.compile(r"(\d{1,18})(?:\.(\d{1,9}))?", re.A)
OF_ESCAPES = {escape.encode(): character.encode() for character, escape in NAMED.items()}
# Reports show the id; what is made of another tool's output has none of its own.
RUN_ID = "00000000-0000-4000-8000-000000000001"
# A failure whose code is not known: nextest says nothing more of this code, with which a panic ends.
UNKNOWN_FAILURE = "fail:101"
# What a test counts as by the result of its last attempt, as in nextest's `RunStats::on_test_finished`; else as failed.
COUNTED = {
    "pass": ("passed",),
    "leak": ("passed", "leaky"),
    "tmpass": ("passed",),
    "leakfail": ("failed", "leakyfailed"),
    "exec": ("exec",),
    "tmout": ("timedout",),
}


def spelled(character, may_be_byte):
    """An escaped character. Bytes that are not UTF-8 occur in outputs alone."""
    if character in NAMED:
        return NAMED[character]
    code = ord(character)
    if 0xDC80 <= code <= 0xDCFF and may_be_byte:
        return f"\\x{code - 0xDC00:02x}"
    return f"\\x{code:02x}" if code < 0x80 else "\ufffd"


def text(value, may_be_byte=False):
    """A text, or `-` for None. A text that is `-` itself is spelled by its code."""
    if value is None:
        return "-"
    if value == "-":
        return "\\x2d"
    if value.isprintable() and "\\" not in value:
        return value
    if SPELLED.search(value):
        value = value.replace("\\", NAMED["\\"])
        # An output may be long, and few characters in it are different ones.
        for it in {*value} - {"\\"}:
            value = value.replace(it, spelled(it, may_be_byte)) if SPELLED.match(it) else value
    return value


def stream(output):
    """What was captured of a stream, as text or as bytes; None where it was not captured."""
    if not output:
        return "-" if output is None else ""
    if isinstance(output, bytes):
        output = output.decode("utf-8", "surrogateescape")
    return text(output, may_be_byte=True)


def unescaped(field):
    """The bytes that a field spells, or None where one of its escapes is none."""
    if b"\\" in ESCAPE.sub(b"", field):
        return None
    return ESCAPE.sub(lambda found: bytes.fromhex(found[1].decode()) if found[1] else OF_ESCAPES[found[0]], field)


def signal_result(number):
    """The result of a process that a signal ended."""
    try:
        return f"sig:{number}:{signal.Signals(number).name.removeprefix('SIG')}"
    except ValueError:
        return f"sig:{number}"


def part(found):
    """The part of a stream that matters: the stream, the offset in bytes and the text there; `-` for None."""
    if found is None:
        return "-"
    name, start, output = found
    return f"{name}:{start}:{stream(output)}"


def words(values):
    return "\\,".join(text(it) for it in values) if values else "-"


def nanos(seconds):
    """Decimal seconds as whole nanoseconds, ties up. What is no number, below 0 or beyond all durations is 0."""
    if usual := USUAL.fullmatch(str(seconds or 0)):
        return str(int(usual[1] + (usual[2] or "").ljust(9, "0")))
    try:
        exact = Decimal(str(seconds or 0)) * 1_000_000_000
        rounded = int(exact.to_integral_value(ROUND_HALF_UP)) if abs(exact) < 1 << 128 else 0
        return str(rounded if 0 <= rounded < 1 << 128 else 0)
    except (ArithmeticError, ValueError):
        return "0"


def header(started, status, run_id=RUN_ID):
    """The line of a replay's header: when the run started, as Python's `time` has it, and how it ended."""
    return "\t".join(["header", run_id, "-", "-", ",".join(map(str, started[:6])), text(status)]) + "\n"


class Attempt:
    """An attempt of a test: how it ended (a result as docs/SCENES.md has it), how long it took, and what it wrote."""

    def __init__(
        self,
        result,
        seconds,
        stdout=None,
        stderr=None,
        combined=None,
        is_slow=False,
        start_error=None,
        errors=None,
        highlight=None,
    ):
        self.result, self.is_slow = result, is_slow
        if start_error is not None:
            output = "start", words(start_error), "-"
        elif combined is not None:
            output = "comb", stream(combined), "-"
        else:
            output = "split", stream(stdout), stream(stderr)
        after = words(errors) if errors else "-", part(highlight) if highlight else "-"
        self.fields = [result, nanos(seconds), "1" if is_slow else "0", *output, *after]

    def forget(self, errors):
        """Leaves out what it wrote, and says why."""
        self.fields[3:] = ["split", "-", "-", words(errors), "-"]


class Run:
    """Writes the lines of one run, and counts."""

    def __init__(self, write, total, binaries, skipped=0, profile="default", run_id=RUN_ID):
        self.write, self.counts, self.texts = write, {}, {}
        self.count_as("initial", total)
        self.line("run", run_id, profile, str(total), str(binaries), f"tests={skipped}" if skipped else "-")

    def line(self, *fields):
        self.write("\t".join(fields) + "\n")

    def stats(self):
        return " ".join(self.texts.values()) or "-"

    def count_as(self, key, value):
        """What is 0 is left out."""
        self.counts[key] = value
        if value:
            self.texts[key] = f"{key}={value}"

    def count(self, *keys):
        for key in keys:
            value = self.counts[key] = self.counts.get(key, 0) + 1
            self.texts[key] = f"{key}={value}"

    def start(self, binary, name, command):
        self.line("start", "-", text(binary), text(name), self.stats(), words(command))

    def retry(self, binary, name, attempt, number, total):
        """An attempt failed, and the next one starts at once."""
        self.line("retry", "-", text(binary), text(name), str(number), str(total), "0", "immediate", *attempt.fields)
        self.line("retrystart", "-", text(binary), text(name), str(number + 1), str(total), "-")

    def cancel(self, running, reason):
        """`RunStats::cancel_reason` is the reason from here on."""
        self.count_as("cancel", reason)
        self.line("cancel", "0", str(running), reason)

    def kill(self, running, reason):
        self.count_as("cancel", reason)
        self.line("kill", "0", str(running), reason)

    def slow(self, binary, name, attempt, total, seconds, will_terminate=False):
        self.line(
            "slow", "-", text(binary), text(name), str(attempt), str(total), nanos(seconds), str(int(will_terminate))
        )

    def skip(self, binary, name):
        # `RunStats::skipped` counts each test that is skipped.
        self.count("skipped")
        self.line("skip", "-", text(binary), text(name))

    def count_finished(self, attempts):
        """The last attempt decides; a test that passed after others is flaky, too."""
        last = attempts[-1]
        keys = COUNTED.get(last.result, ("failed",))
        if keys[0] == "passed":
            is_slow = last.is_slow and last.result != "tmpass"
            keys = (*keys, *["slow"] * is_slow, *["flaky"] * (len(attempts) > 1))
        self.count("finished", *keys)

    def done(self, binary, name, attempts, success="never", failure="immediate", total=None):
        """A test finished, of whose attempts this many are allowed; as many as were made where that is not known."""
        self.count_finished(attempts)
        self.line_of(binary, name, attempts, success, failure, total)

    def line_of(self, binary, name, attempts, success="never", failure="immediate", total=None):
        """Writes the line of a finished test, which is counted."""
        before = f"done\t-\t{text(binary)}\t{text(name)}\t{success}\t{failure}\tpass"
        before += f"\t{self.stats()}\t{total or len(attempts)}"
        self.write("\t".join([before, *["\t".join(it.fields) for it in attempts]]) + "\n")

    def end(self, seconds):
        self.line("end", nanos(seconds), self.stats(), "0", "-")


class WholeRun(Run):
    """Writes the lines of a run whose totals are known in its end: until then a byte that no line has is in their
    place. Many lines are kept in a temporary file."""

    TOTAL, PIECE = "\0", 1 << 20

    def __init__(self):
        self.kept, self.counts, self.texts = None, {}, {}
        # The last lines, and their characters.
        self.last, self.size = [], 0
        self.count_as("initial", self.TOTAL)

    def write(self, line):
        self.last.append(line)
        self.size += len(line)
        if self.size > self.PIECE:
            self.keep()

    def keep(self):
        self.kept = self.kept or tempfile.SpooledTemporaryFile(16 * self.PIECE)
        self.kept.write(encoded("".join(self.last)))
        self.last, self.size = [], 0

    def passed(self, binary, name, nanos):
        """A test that passed at once, and of which no more is known."""
        self.count("finished", "passed")
        before = f"done\t-\t{text(binary)}\t{text(name)}\tnever\timmediate\tpass\t{self.stats()}"
        self.write(f"{before}\t1\tpass\t{nanos}\t0\tsplit\t-\t-\t-\t-\n")

    def lines(self, total, binaries, skipped, run_id=RUN_ID):
        """Some of the lines at a time, with the totals."""
        first = []
        Run(first.append, total, binaries, skipped, run_id=run_id)
        yield encoded(first[0])
        # Statistics leave out what is 0, and are `-` where all is.
        changes = {self.TOTAL: str(total)} if total else {f"initial={self.TOTAL} ": "", f"initial={self.TOTAL}": "-"}
        self.keep()
        with self.kept:
            self.kept.seek(0)
            while piece := self.kept.read(self.PIECE):
                if not piece.endswith(b"\n"):
                    piece += self.kept.readline()
                for pattern, number in changes.items():
                    piece = piece.replace(pattern.encode(), number.encode())
                yield piece
