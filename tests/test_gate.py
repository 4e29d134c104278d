"""What the gate itself rests on: each script has a least count, and a browser that does not start is a fault."""

import os
import shutil
import subprocess
import tempfile
import unittest
from pathlib import Path
from unittest import mock

from gate import browser, places
from gate.checks import module_of
from norigully import TOP


class Least(unittest.TestCase):
    def test_scripts(self):
        """Each that ./test runs says how much it compares at least."""
        test = module_of(TOP / "test")
        scripts = [
            *test.SCRIPTS, *test.OF_TESTS, *test.UNPROVED[1:], test.LAYOUT, *test.OF_ALL, test.ALONE, *test.QUICK
        ]
        self.assertEqual({*scripts} - {*places.least()}, set())

    def test_counts(self):
        for kinds, said in (
            ({"all": 2}, []),
            ({"all": 1}, ["scripts/gate/least.txt: a b: all 1, and at least 2 is there"]),
            ({"main": 1, "other": 1}, []),
        ):
            wanted = mock.patch("gate.places.least", lambda: {"a b": {"all": 2}})
            with self.subTest(kinds=kinds), wanted, mock.patch("sys.argv", ["scripts/a", "b"]):
                self.assertEqual([*places.too_few(kinds)], said)

    def test_untried(self):
        with tempfile.NamedTemporaryFile("w") as file, mock.patch("gate.places.UNTRIED", Path(file.name)):
            file.write("scripts/a f 1 2 without no_such: it reads\nscripts/a g 1 without sh: it is there\n")
            file.flush()
            self.assertEqual(places.untried(), {"scripts/a f 1": "it reads", "scripts/a f 2": "it reads"})


class Browsers(unittest.TestCase):
    def path(self, script):
        made = tempfile.TemporaryDirectory()
        self.addCleanup(made.cleanup)
        file = Path(made.name, "chromium")
        file.write_text(script)
        file.chmod(0o755)
        return mock.patch.dict(os.environ, {"PATH": f"{made.name}:/usr/bin:/bin"})

    def test_one_that_does_not_start(self):
        with self.path("#!/bin/sh\nexit 1\n"):
            self.assertEqual(browser.found(), "chromium")
            with self.assertRaises((EOFError, OSError)), browser.started():
                pass

    def test_none(self):
        with mock.patch("shutil.which", lambda name: None), browser.started() as none:
            self.assertIsNone(none)


class Tools(unittest.TestCase):
    """Debian's tools have nothing to say of both packages."""

    def ran(self, name, *words):
        if not shutil.which(name):
            self.skipTest(f"there is no {name}")
        with tempfile.TemporaryDirectory() as cache:
            env = {**os.environ, "MYPY_CACHE_DIR": cache}
            return subprocess.run([name, *words], cwd=TOP / "scripts", env=env, capture_output=True, text=True).stdout

    def test_pyflakes(self):
        self.assertEqual(self.ran("pyflakes3", "norigully", "gate", "../tests"), "")

    def test_mypy(self):
        self.assertRegex(self.ran("mypy", "-p", "norigully", "-p", "gate"), "^Success: ")


if __name__ == "__main__":
    unittest.main()
