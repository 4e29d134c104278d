"""That a script passed, kept (kept.py) by a sum of all that it can read, for ./test --quick: what a change cannot touch
does not run again. ./test runs every script.

A script can read all files here but those that are built, and of documents, mistakes and other scripts those that it
names, or that a script names which it names. It also rests on the programs that it runs, the kit, and the tools that
are here.
"""

import functools
import hashlib
import os
import pathlib
import shutil
import sys

from gate.processes import TESTS
from norigully import TOP, kept, kit

# What a build or a run leaves.
LEFT = (".git", "out", "target", "__pycache__", "my-run", "Cargo.lock")
# What only those scripts read that name it, and those that read it by a pattern.
RARELY_READ = ("*.md", "scripts/check-*", "crates/*/mistakes/*", "crates/*/must-fail/*", "mistakes/*")
BY_PATTERN = {"check-docs": "*", TESTS: "*", "check-run": "scripts/check-*"}
# The tools that scripts take where they are there.
TOOLS = (
    *("bash", "cargo", "cc", "chromium", "chromium-headless-shell", "google-chrome", "mypy", "pdftotext", "pyflakes3"),
    *("rustc", "setpriv"),
)
# How many are kept.
MOST = 99


def sums_of_files():
    """The sums of the files here, by their paths."""
    found = {}
    for at, folders, names in os.walk(TOP):
        folders[:] = sorted(it for it in folders if it not in LEFT)
        for file in (pathlib.Path(at, it) for it in names if it not in LEFT):
            if file.is_file():
                found[str(file.relative_to(TOP))] = hashlib.sha256(file.read_bytes()).hexdigest()
    return found


@functools.cache
def text_of(script):
    """The text of a script with those of the scripts that it names."""
    names, texts = {script}, {}
    while new := names - texts.keys():
        texts.update((it, (TOP / "scripts" / it).read_text()) for it in new)
        names.update(it.name for it in TOP.glob("scripts/check-*") if any(it.name in texts[one] for one in new))
    return "".join(texts.values())


def can_read(script, path):
    path = pathlib.PurePath(path)
    is_named = script in BY_PATTERN and path.match(BY_PATTERN[script]) or path.name in text_of(script)
    return is_named or not any(map(path.match, RARELY_READ))


class Passed:
    """The scripts that passed before over what they would read now, and those that pass now over these programs."""

    def __init__(self, programs):
        self.files, self.entries, self.new = sums_of_files(), kept.Kept(kept.folder("scripts"), MOST), {}
        self.rest = [programs, kit.identity(), sys.version, *map(shutil.which, TOOLS)]

    def name(self, words):
        """The name under which it is kept that a script passed."""
        script = words if words == TESTS else words.split()[0]
        files = sorted(it for it in self.files.items() if can_read(script, it[0]))
        return f"{script}-{kept.sum_of(words, files, self.rest)}"

    def find(self, words):
        """The last line of a script that passed before, or None."""
        line = self.entries.find(self.name(words))
        return None if line is None else line.decode()

    def add(self, words, line):
        self.new[self.name(words)] = line.encode()

    def changed(self):
        """The files that have changed since this began."""
        return sorted({path for path, _ in self.files.items() ^ sums_of_files().items()})

    def keep(self):
        """Keeps what was added, which counts only if no file has changed."""
        for name, line in self.new.items():
            self.entries.keep(name, line)
        self.entries.shrink()
