"""What the checks of pages share: a page that was made, and the reports in it."""

import base64
import gzip
import json
import re
import subprocess

from norigully import TOP
from norigully.scene_lines import Attempt, Run

STYLE = re.compile(r"\x1b\[[0-9;]*m")


def changed(scene, success, failure):
    """The scene with other words for when output is shown."""
    lines = []
    for line in scene.split(b"\n"):
        fields = line.split(b"\t")
        if fields[0] == b"done":
            fields[4:6] = success.encode() or fields[4], failure.encode() or fields[5]
        elif fields[0] == b"retry":
            fields[7] = failure.encode() or fields[7]
        lines.append(b"\t".join(fields))
    return b"\n".join(lines)


def large_scene(tests, lines):
    """A run of tests that each wrote this many lines."""
    made = []
    run = Run(made.append, tests, 1)
    for number in range(tests):
        output = "".join(f"line {it} of test {number}: \x1b[32mok\x1b[0m\n" for it in range(lines))
        result = "fail:1" if number % 50 == 7 else "pass"
        run.done("large", f"case_{number:05}", [Attempt(result, 0.01, output.encode(), b"")])
    run.end(60)
    return "".join(made).encode()


def short_scene(lines):
    """A failure that wrote this many short lines."""
    made = []
    run = Run(made.append, 1, 1)
    run.done("short", "lines", [Attempt("fail:1", 0.01, b"ab\n" * lines, b"")])
    run.end(1)
    return "".join(made).encode()


class Page:
    """A page that was made: what is packed in it."""

    def __init__(self, text):
        self.text = text.decode()
        self.about = json.loads(self.packed("about"))
        self.table = self.packed("table").split(b"\n")[:-1]
        self.reports = self.packed("reports").decode().split("\n")

    def packed(self, name):
        return gzip.decompress(base64.b64decode(re.search(f'id="{name}">([^<]*)<', self.text)[1]))

    def report(self, key):
        """A report: the stretches of the lines of the table that it is."""
        numbers, report, at = list(map(int, self.reports[self.about["reports"][key]].split(","))), [], 0
        for skipped, count in zip(numbers[::2], numbers[1::2]):
            report += self.table[at + skipped : at + skipped + count]
            at += skipped + count
        return b"\n".join(report)


def run(words, **how):
    return subprocess.run(list(map(str, words)), **{"stdin": subprocess.DEVNULL, "capture_output": True, **how})


def make(checks, file, *words):
    """Makes a page, and returns it; None where that failed."""
    ran = run([TOP / "scripts/page", "-o", file, *words])
    checks.expect((ran.returncode, ran.stdout, ran.stderr) == (0, b"", b""), f"page {words}: {ran.stderr[:300]}")
    return Page(file.read_bytes()) if ran.returncode == 0 else None
