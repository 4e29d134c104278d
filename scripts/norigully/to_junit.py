"""JUnit XML of a run, as nextest writes it, for what reads nothing else."""

import re
from xml.sax.saxutils import escape, quoteattr

from norigully.ci_summary import PASSED, Summary, read_run
from norigully.page_scene import number_of, plain

# What XML cannot have, and escape sequences.
UNFIT = re.compile("\x1b\\[[0-?]*[ -/]*[@-~]|[^\t\n\r -\ud7ff\ue000-\ufffd\U00010000-\U0010ffff]")
# nextest's types of failures by the words of results, and their signals.
TYPES = {"fail": "test failure with exit code {}", "sig": "test abort", "tmout": "test timeout"}
TYPES["exec"] = "execution failure"
STREAMS = (4, "system-out"), (5, "system-err")


class Junit(Summary):
    """The elements of tests, by their suites."""

    def __init__(self, file):
        super().__init__(file)
        self.suites, self.run_id, self.red = {}, "", 0

    def read(self, number, line):
        super().read(number, line)
        fields = line.rstrip(b"\n").split(b"\t")
        if fields[0] == b"run":
            self.run_id = text_of(fields[1])
        elif fields[0] == b"skip":
            self.add(fields[2:4], "<skipped/>", b"0", "skipped")

    def take(self, names, attempts, has_failed):
        """Takes a test. The element of one that failed in the end is its first attempt."""
        last = attempts[-1]
        if not has_failed:
            inner = "".join(map(again, ["flaky"] * len(attempts), attempts[:-1])) + streams_of(last)
            self.add(names, inner, last[1])
        elif last[0] in PASSED:
            inner = '<failure type="flaky failure"/>' + "".join(map(again, ["flaky"] * len(attempts), attempts[:-1]))
            self.add(names, inner + streams_of(last), last[1], "failures")
        else:
            tag, inner = failure_of(attempts[0])
            inner += f"</{tag}>" + "".join(map(again, ["rerun"] * len(attempts), attempts[1:]))
            self.add(names, f"<{tag}{inner}{streams_of(attempts[0])}", attempts[0][1], f"{tag}s")

    def add(self, names, inner, nanos, kind="passed"):
        binary, name = map(text_of, names)
        cases, counts = self.suites.setdefault(binary, ([], {}))
        counts[kind] = counts.get(kind, 0) + 1
        self.red += kind in ("failures", "errors")
        time = seconds(number_of(nanos))
        cases.append(f"<testcase name={quoted(name)} classname={quoted(binary)} time={time}>{inner}</testcase>\n")

    def pieces(self):
        """The document. A run that failed and none of whose tests did is red, too."""
        if not self.red and (word := self.came_to()) not in ("passed", "had no tests"):
            self.add([b"run", b"[no test]"], f'<failure message="The test run {word}."/>', b"0", "failures")
        total = {}
        for _, counts in self.suites.values():
            total = {key: total.get(key, 0) + counts.get(key, 0) for key in {*total, *counts}}
        yield '<?xml version="1.0" encoding="UTF-8"?>\n<testsuites name="nextest-run" '
        yield f"{counted(total)} uuid={quoted(self.run_id)} time={seconds(self.took)}>\n"
        for binary, (cases, counts) in self.suites.items():
            yield f"<testsuite name={quoted(binary)} {counted(counts)}>\n"
            yield from cases
            yield "</testsuite>\n"
        yield "</testsuites>\n"


def counted(counts):
    shown = {"tests": sum(counts.values()), **{key: counts.get(key, 0) for key in ("failures", "errors", "skipped")}}
    return " ".join(f'{key}="{value}"' for key, value in shown.items())


def seconds(nanos):
    return f'"{nanos // 10**9}.{nanos % 10**9:09}"'


def text_of(field):
    return UNFIT.sub("", plain(field))


def quoted(text):
    return quoteattr(text, {"\n": "&#10;", "\r": "&#13;", "\t": "&#9;"})


def element(tag, text):
    return f"<{tag}>{escape(text, {chr(13): '&#13;'})}</{tag}>"


def streams_of(attempt):
    """What an attempt wrote. One output of both streams is in the element of one."""
    if attempt[3] == b"start":
        return element("system-err", causes(attempt[4]))
    return "".join(element(tag, text_of(attempt[place])) for place, tag in STREAMS if attempt[place] != b"-")


def causes(field):
    """Errors, each with the one behind it."""
    return ": ".join(map(text_of, field.split(b"\\,")))


def shown_of(attempt):
    """What an attempt says of its failure: the part that matters, the errors, or else all that it wrote."""
    if attempt[7] != b"-":
        return text_of(attempt[7]).split(":", 2)[-1]
    if attempt[6] != b"-" or attempt[3] == b"start":
        return causes(attempt[4 if attempt[3] == b"start" else 6])
    return next((text for place, _ in STREAMS[::-1] if (text := text_of(attempt[place])).strip("-")), "")


def failure_of(attempt):
    """The tag of a failure, and its element behind that: nextest's type, and a text, since some readers show nothing
    else."""
    word, _, code = plain(attempt[0]).partition(":")
    kind = TYPES.get(word.split("+")[0], "test failure").format(code)
    shown = shown_of(attempt)
    if word.startswith("sig") and code:
        number, _, name = code.partition(":")
        shown = shown or f"aborted with signal {number}" + (f" (SIG{name})" if name else "")
    leak = ", and leaked handles" if "+leak" in word else ""
    message = f" message={quoted(shown.strip().partition(chr(10))[0])}" if shown.strip() else ""
    tag = "error" if word == "exec" else "failure"
    return tag, f'{message} type="{kind}{leak}">{escape(shown, {chr(13): "&#13;"})}'


def again(word, attempt):
    """An attempt beside the one of its test."""
    tag, inner = failure_of(attempt)
    tag = f"{word}{tag.capitalize()}"
    return f"<{tag} time={seconds(number_of(attempt[1]))}{inner}{streams_of(attempt)}</{tag}>"


def made_of(word, words, _say):
    return read_run(Junit, word, words).pieces()
