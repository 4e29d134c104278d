"""The tests of a run that failed, one a line, as the tool that ran them takes them to run them again."""

import os
import re

from norigully.ci_summary import Summary, read_run
from norigully.entry import Bad
from norigully.page_scene import plain

# Tests that are none, but stand for a binary, a file or a class.
NO_TESTS = ("", "[suite]", "[no test]")


class Failed(Summary):
    """The binary and the name of each test, and whether it failed in the end."""

    def __init__(self, file):
        super().__init__(file)
        self.tests = {}

    def take(self, names, _attempts, has_failed):
        self.tests[tuple(map(plain, names))] = has_failed


def of_pytest(binary, name):
    """The id of a node. The class of JUnit XML has the path of the file and the classes with dots: the file is the
    longest path that is there. A file that could not be collected is a test without a class."""
    for whole, more in ((binary, [] if name in NO_TESTS else [name]), (name, [])):
        parts = whole.split(".")
        for end in range(len(parts), 0, -1):
            if os.path.isfile(file := "/".join(parts[:end]) + ".py"):
                return "::".join([file, *parts[end:], *more])
    return None


def of_cargo(_binary, name):
    return None if name in NO_TESTS else name


def of_go(binary, name):
    """A package, and what -run takes, in which each part between slashes is a pattern: none is all tests."""
    return f"{binary} " + ("" if name in NO_TESTS else f"^{'$/^'.join(map(re.escape, name.split('/')))}$")


FORMS = {"pytest": of_pytest, "cargo": of_cargo, "go": of_go}


def made_of(word, words, say):
    """The lines for the tool that the first word names. What it has no name for is said."""
    if not words or words[0] not in FORMS:
        raise Bad(f"{word} needs {', '.join([*FORMS][:-1])} or {[*FORMS][-1]}, and a FILE")
    lines = {}
    for names in (names for names, has_failed in read_run(Failed, word, words[1:]).tests.items() if has_failed):
        made = FORMS[words[0]](*names)
        if made is None or "\n" in made:
            say(f"left out: {' '.join(names).rstrip()}, which {words[0]} cannot be given here")
        else:
            lines[f"{made}\n"] = True
    return [*lines]
