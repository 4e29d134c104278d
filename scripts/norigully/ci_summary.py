"""What a CI service shows of a run beside its log: a summary in Markdown, and GitHub's annotations of failures."""

import heapq
import os
import re

from norigully import entry
from norigully.entry import Bad
from norigully.page_scene import FIELDS_BEFORE, FIELDS_OF_AN_ATTEMPT, PASSED, SLOWEST, number_of, plain, spoken
from norigully.recorded import RecordedRun

# Of a run so many failures are shown, of each stream of one so many lines at its beginning and at its end, and so many
# characters of a line and of a name.
MOST, LINES, LONGEST, LONGEST_NAME = 50, 20, 2000, 300
# GitHub takes ten annotations of a step, and 1,048,576 bytes of a summary: of a longer one it shows nothing. So many of
# them are for failures; the rest of a summary has fewer.
ANNOTATIONS, SIZE = 10, 900_000
# Of a package's path so many folders may be below the current one.
DEEPEST = 8
# Escape sequences, and what else is no text.
UNSEEN = re.compile(r"\x1b\[[0-?]*[ -/]*[@-~]|[\x00-\x08\x0b\x0c\x0e-\x1f\x7f-\x9f]")
# `src/lib.rs:6:100`, `File "test_store.py", line 11`, `StoreTests.cs:line 12`.
# Within such a word none begins: at each place of a long one it would be looked for in the rest.
PLACE = re.compile(r"""(?<![\w.+@/-])([\w.+@/-]{1,300}\.\w{1,9})(?::(?:line )?|", line )(\d{1,7})\b""", re.A)
KIND = re.compile(rb"[a-z-]+")
SHOWN = {"flaky": "flaky", "failed": "failed", "exec": "could not be started", "timedout": "timed out"}
# What a run came to counts as failures by these keys.
FAILURES = ("failed", "exec", "timedout", "setupfailed", "setupexec", "setuptimedout")


class Failure:
    """A test or a setup script that failed: its name, and what it wrote, also in earlier attempts; the first text is
    that of the last attempt that failed."""

    def __init__(self, names, *attempts):
        self.name, self.result = " ".join(map(plain, names)), plain(attempts[-1][0])
        self.folders = plain(names[0]).split("/")[-DEEPEST:]
        self.wrote = written_by(attempts[-1])
        said = {*self.wrote}
        # Of many attempts the last ones say enough.
        for number in range(len(attempts) - 1, max(0, len(attempts) - LINES), -1):
            texts = [it for it in written_by(attempts[number - 1]) if it not in said]
            said.update(texts)
            self.wrote += [f"attempt {number}: {it}" for it in texts]

    def place(self):
        """The first file that what it wrote names and that is there, and the line; None where there is none. Go names
        a file without its folder, which the end of the package's path has."""
        tried = set()
        for found in (it for text in self.wrote for it in PLACE.finditer(text)):
            # A log names the same few files a thousand times.
            if found[1] in tried:
                continue
            tried.add(found[1])
            folders = [] if "/" in found[1] else self.folders
            for start in range(len(folders) + 1):
                path = "/".join([*folders[start:], found[1]])
                if os.path.isfile(path) and not (path := os.path.relpath(path)).startswith(".."):
                    return path, found[2]
        return None


def written_by(fields):
    """The texts that an attempt wrote."""
    # What JUnit XML says of a failure is before standard error.
    streams = [fields[5], fields[4]] if fields[3] == b"split" else [fields[4]]
    wrote = [text for text in (UNSEEN.sub("", plain(it)) for it in streams if it != b"-") if text.strip()]
    return [it.replace("\r\n", "\n").replace("\r", "\n").lstrip("\n").rstrip() for it in wrote]


class Summary:
    """What the lines of a scene say about a run."""

    def __init__(self, file):
        self.file, self.took, self.counts, self.has_ended = file, 0, {}, False
        self.failed, self.failures, self.flakes, self.flaky, self.slowest = 0, [], 0, [], []

    def read(self, number, line):
        fields = line.rstrip(b"\n").split(b"\t")
        kind, wrong = fields[0], f"{self.file}: line {number}: no line of a scene"
        if not kind or kind.startswith(b"#"):
            return
        try:
            if not KIND.fullmatch(kind):
                raise Bad(wrong)
            if kind == b"done":
                self.read_test(number, fields)
            elif kind == b"setupdone" and fields[5] not in PASSED:
                self.fail(Failure([b"setup script", fields[2]], fields[5:13]))
            elif kind in (b"end", b"endstress"):
                self.took, self.counts = number_of(fields[1]), counts_of(fields[2 if kind == b"end" else 5])
            # What begins takes an end back.
            self.has_ended = kind in (b"end", b"endstress") or (self.has_ended and kind != b"run")
        except (IndexError, ValueError) as error:
            raise Bad(wrong) from error

    def read_test(self, number, fields):
        count = len(fields) - FIELDS_BEFORE
        if count <= 0 or count % FIELDS_OF_AN_ATTEMPT:
            raise ValueError
        names, attempts = fields[2:4], attempts_in(fields)
        has_passed = attempts[-1][0] in PASSED
        self.take(names, attempts, not has_passed or (len(attempts) > 1 and fields[6] == b"fail"))
        last = attempts[-1]
        heapq.heappush(self.slowest, (number_of(last[1]), -number, " ".join(map(plain, names))))
        if len(self.slowest) > SLOWEST:
            heapq.heappop(self.slowest)

    def take(self, names, attempts, has_failed):
        """Takes a test."""
        if has_failed:
            self.fail(Failure(names, *attempts[: -1 if attempts[-1][0] in PASSED else None]))
        elif len(attempts) > 1:
            self.flakes += 1
            if len(self.flaky) < MOST:
                self.flaky.append(Failure(names, *attempts[:-1]))

    def fail(self, failure):
        self.failed += 1
        if len(self.failures) < MOST:
            self.failures.append(failure)

    def came_to(self):
        """What the run came to, in a word."""
        if not self.has_ended:
            return "did not end"
        if self.failed or "cancel" in self.counts or any(map(self.count, FAILURES)):
            return "failed"
        if not self.count("initial"):
            return "had no tests"
        return "passed" if self.count("finished") >= self.count("initial") else "was cut off"

    def count(self, key):
        return number_of(self.counts.get(key, "0").encode())

    def markdown(self):
        word = self.came_to()
        yield f"### {'✅' if word == 'passed' else '❌'} The test run {word}\n\n"
        finished = self.count("finished")
        shown = [(f"{finished} test{'s' * (finished != 1)} run", True), (f"{self.count('passed')} passed", True)]
        for key, name in SHOWN.items():
            shown.append((f"{self.count(key)} {name}", self.count(key)))
        lost = max(0, self.count("initial") - finished)
        shown += [(f"{self.count('skipped')} skipped", True), (f"{lost} not run", lost)]
        yield f"{', '.join(text for text, is_shown in shown if is_shown)}, in {spoken(self.took)}.\n\n"
        parts, room = parts_of(self.failures, SIZE)
        yield from parts
        if self.failed > len(parts):
            yield f"And {self.failed - len(parts)} more.\n\n"
        if self.flaky:
            yield "**Flaky:**\n\n"
            parts, _ = parts_of(self.flaky, room)
            yield from parts
        if self.flakes > len(parts) and self.flaky:
            yield f"And {self.flakes - len(parts)} more.\n\n"
        if self.slowest:
            yield "| Slowest tests | |\n|---|---|\n"
        for nanos, _, name in sorted(self.slowest, reverse=True):
            yield f"| <code>{escaped(name)}</code> | {spoken(nanos)} |\n"

    def annotations(self):
        yield from annotations_of("error", "", self.failures, self.failed, "test failures")
        # GitHub takes as many warnings beside them.
        yield from annotations_of("warning", "flaky: ", self.flaky, self.flakes, "flaky tests")


def annotations_of(kind, before, failures, total, all_of_them):
    count = ANNOTATIONS if total <= ANNOTATIONS else ANNOTATIONS - 1
    for it in failures[:count]:
        place = it.place()
        at = f"file={property_of(place[0])},line={place[1]}," if place else ""
        said = shortened(it.wrote[0]) if it.wrote else it.result
        yield f"::{kind} {at}title={property_of(before + it.name)}::{message_of(said)}\n"
    if total > count:
        yield f"::{kind} title={all_of_them}::and {total - count} more\n"


def parts_of(failures, room):
    """The parts for the first failures, as many as there is room for, and the room that is left."""
    parts = []
    for it in failures:
        code = "\n\n".join(map(indented, it.wrote)) or f"    {it.result}"
        part = f"<details><summary><code>{escaped(it.name)}</code></summary>\n\n{code}\n\n</details>\n\n"
        room -= len(entry.encoded(part))
        if room < 0:
            break
        parts.append(part)
    return parts, max(room, 0)


def attempts_in(fields):
    return [fields[at : at + FIELDS_OF_AN_ATTEMPT] for at in range(FIELDS_BEFORE, len(fields), FIELDS_OF_AN_ATTEMPT)]


def counts_of(statistics):
    """Statistics, as a line has them."""
    return {} if statistics == b"-" else dict(it.split("=", 1) for it in plain(statistics).split(" "))


def shortened(text):
    """The beginning and the end of a text that is long, and how many lines are between."""
    lines = text.split("\n")
    if len(lines) > 2 * LINES:
        lines[LINES:-LINES] = [f"[{len(lines) - 2 * LINES} lines left out]"]
    return "\n".join(cut(it, LONGEST) for it in lines)


def cut(text, longest):
    """The beginning of a text that is longer, and how much is left out."""
    return text if len(text) <= longest else f"{text[:longest]} [{len(text) - longest} characters left out]"


def indented(text):
    """A text as indented code, which takes whatever it has, fences and tags too."""
    return "\n".join(f"    {it}" for it in shortened(text).split("\n"))


def escaped(text):
    """A name in one line of HTML in Markdown."""
    text = cut(UNSEEN.sub("", text), LONGEST_NAME).replace("&", "&amp;").replace("<", "&lt;").replace(">", "&gt;")
    return re.sub(r"\s", " ", re.sub(r"[|*_`\[\]\\~$@#:]", lambda it: f"&#{ord(it[0])};", text))


def message_of(text):
    return text.replace("%", "%25").replace("\r", "%0D").replace("\n", "%0A")


def property_of(text):
    return message_of(UNSEEN.sub("", text)).replace(":", "%3A").replace(",", "%2C")


def made_of(word, words, _say):
    """What the first word asks for, of a scene."""
    summary = read_run(Summary, word, words)
    return summary.markdown() if word == "--summary" else summary.annotations()


def read_run(kind, word, words):
    """What the lines of a run say: of a scene, or of a recorded run behind `--recorded`."""
    is_recorded, files = words[:1] == ["--recorded"], words[words[:1] == ["--recorded"] :]
    if len(files) != 1 or (files[0].startswith("-") and files[0] != "-"):
        is_option = files and files[0].startswith("-") and files[0] != "-"
        raise Bad(f"{word} takes no {files[0]}" if is_option else f"{word} needs a FILE, which is the last word")
    found = kind("standard input" if files[0] == "-" else files[0])
    for number, line in enumerate(RecordedRun(files[0]).scene() if is_recorded else entry.lines_of(files[0]), 1):
        found.read(number, line)
    return found
