"""The tests that failed, as each tool takes them."""

import os
import unittest
from pathlib import Path
from tempfile import TemporaryDirectory

from norigully.entry import Bad
from norigully.failed_tests import made_of

DONE = b"done\t-\t%b\tnever\timmediate\t%b\t-\t1\t%b\n"
PASSED, FAILED = (b"%b\t0\t0\tsplit\t-\t-\t-\t-" % it for it in (b"pass", b"fail:1"))
# Tests, and the lines that each tool takes; what it cannot be given is said.
TESTS = (
    ("a.test_b\tc", "a/test_b.py::c", "c", "a.test_b ^c$"),
    ("a.test_b.D\tc[x y]", "a/test_b.py::D::c[x y]", "c[x y]", r"a.test_b.D ^c\[x\ y\]$"),
    ("\ta.test_b", "a/test_b.py", "a.test_b", " ^a\\.test_b$"),
    ("a.test_b\t[suite]", "a/test_b.py", None, "a.test_b "),
    ("a.other\tc", None, "c", "a.other ^c$"),
    ("example.com/p\tTestA/of_b", None, "TestA/of_b", "example.com/p ^TestA$/^of_b$"),
    ("p::bin\t[no test]", None, None, "p::bin "),
)
TOOLS = "pytest", "cargo", "go"


class FailedTests(unittest.TestCase):
    def setUp(self):
        made, before = TemporaryDirectory(), os.getcwd()
        self.addCleanup(made.cleanup)
        self.addCleanup(os.chdir, before)
        os.chdir(made.name)
        Path("a").mkdir()
        Path("a/test_b.py").touch()

    def made(self, tool, *lines):
        Path("scene").write_bytes(b"".join(lines))
        self.said = []
        return made_of("--failed", [tool, "scene"], self.said.append)

    def test_lines(self):
        for names, *wanted in TESTS:
            for tool, line in zip(TOOLS, wanted):
                with self.subTest(names=names, tool=tool):
                    made = self.made(tool, DONE % (names.encode(), b"pass", FAILED))
                    said = [] if line else [f"left out: {' '.join(names.split())}, which {tool} cannot be given here"]
                    self.assertEqual((made, self.said), ([f"{line}\n"] if line else [], said))

    def test_which(self):
        flaky = FAILED + b"\t" + PASSED
        for kind, attempts, has_failed in ((b"pass", PASSED, False), (b"pass", flaky, False), (b"fail", flaky, True)):
            with self.subTest(attempts=attempts):
                self.assertEqual(bool(self.made("cargo", DONE % (b"a\tb", kind, attempts))), has_failed)

    def test_each_once_as_it_ended(self):
        ended = [DONE % (names, b"pass", it) for names, it in ((b"a\tx", FAILED), (b"b\tx", FAILED), (b"a\ty", FAILED))]
        self.assertEqual(self.made("cargo", *ended, DONE % (b"a\ty", b"pass", PASSED)), ["x\n"])

    def test_words(self):
        for words in ([], ["ant", "scene"], ["scene"]):
            with self.subTest(words=words), self.assertRaises(Bad) as found:
                made_of("--failed", words, None)
            self.assertEqual(str(found.exception), "--failed needs pytest, cargo or go, and a FILE")
