"""What an independent reader says of the files of other tools, and of mutants of them (judge.py)."""

import functools
import shutil
import subprocess
import sys
import tempfile
from pathlib import Path

from norigully import TOP
from tests import test_junit, test_libtest_json  # type: ignore[import]

# So many mutants, two of three of XML, in so many parts.
MUTANTS, PARTS = 30_000, 8


def python():
    """A Python that has what the judge needs, or None: Debian's is for Debian's own."""
    for it in dict.fromkeys((sys.executable, shutil.which("python3"), "/usr/bin/python3")):
        if it and subprocess.run([it, "-c", "import junitparser, lxml"], capture_output=True).returncode == 0:
            return it
    return None


def hand_forms():
    """The smallest file of each rule, by a name."""
    xml = [*test_junit.ENDS, *test_junit.SHOWN, *test_junit.DURATIONS, *test_junit.LEFT_OUT]
    for number, text in enumerate(xml):
        is_whole = text.startswith((b"<testsuite ", b"<testsuites", b"<?xml"))
        yield f"{number}.xml", text if is_whole else b"<testsuite>%b</testsuite>" % text
    for number, (lines, _, _) in enumerate(test_libtest_json.ENDS):
        yield f"{number}.json", "\n".join(lines).encode()


def check_part(python, files, part, checks):
    numbers = (str(MUTANTS * it // PARTS) for it in (part, part + 1))
    ran = subprocess.run([python, TOP / "scripts/gate/judge.py", *numbers, *files], capture_output=True, text=True)
    *said, counts = ran.stdout.splitlines() or [""]
    checks.expect(ran.returncode == 0 and counts, f"the judge: {ran.stderr}")
    judged, failed = map(int, counts.split() or (0, 0))
    checks.count(judged, failed, "\n".join(["the judge:", *said]))


def check_all(files, checks):
    """Says so where no Python has a judge."""
    if (found := python()) is None:
        print(f"{checks.name}: left out: the judge, since no Python here has junitparser and lxml")
        return
    with tempfile.TemporaryDirectory() as folder:
        for name, text in hand_forms():
            (made := Path(folder, name)).write_bytes(text)
            files = [*files, made]
        checks.side_by_side([functools.partial(check_part, found, files, it) for it in range(PARTS)])
