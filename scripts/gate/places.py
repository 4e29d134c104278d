"""The places of the check scripts that compare something, the calls of an `expect` however it is named, and which of
them failed: check-checks wants each to fail under some slip, or a line of untried.txt that says why not. How much the
scripts compare at least is in least.txt, by the functions that their `main` calls, or in all."""

import ast
import os
import re
import shutil
import sys
from pathlib import Path

from norigully import TOP

# The file that gets the lines of scripts at which something failed, where there is one.
NOTED = os.environ.get("CHECKS_NOTED")
UNTRIED, LEAST = TOP / "scripts/gate/untried.txt", TOP / "scripts/gate/least.txt"
COMPARES = re.compile(r"\.expect\w*$|\bchecks\.count$")
# The kind of a line that counts all that a script compares.
ALL = "all"
# Of check-checks and check-tests themselves and of what they do: they fail where a slip is not seen.
OWN = ("scripts/check-checks", "scripts/check-tests", "scripts/gate/checks.py")


def note_failure():
    """Notes the lines of scripts by which an expectation came about that does not hold."""
    if not NOTED:
        return
    lines, frame = [], sys._getframe(2)
    while frame:
        file = Path(frame.f_code.co_filename).resolve()
        if file.is_relative_to(TOP):
            lines.append(f"{file.relative_to(TOP)} {frame.f_lineno}\n")
        frame = frame.f_back
    with open(NOTED, "a") as noted:
        noted.write("".join(lines))


def kind():
    """The kind of an expectation: the function that `main` called for it, or `main`."""
    names, frame = [], sys._getframe(2)
    while frame:
        names.append(frame.f_code.co_name)
        frame = frame.f_back
    return names[max(0, names.index("main") - 1)] if "main" in names else names[-1]


def least():
    """How much each script compares of each kind at least, by its name and words."""
    found = {}
    for line in LEAST.read_text().splitlines():
        words, kind, count = re.fullmatch(r"(.*): (.*) (\d+)", line).groups()
        found.setdefault(words, {})[kind] = int(count)
    return found


def too_few(kinds):
    """Where this script compared less of a kind than it should, or of a kind of which that is not said."""
    words = " ".join([Path(sys.argv[0]).name, *sys.argv[1:]])
    wanted = least().get(words)
    if wanted and ALL in wanted:
        kinds = {ALL: sum(kinds.values())}
    for it in sorted({*kinds, *wanted}) if wanted else ():
        if kinds[it] < wanted.get(it, kinds[it] + 1):
            yield f"{LEAST.relative_to(TOP)}: {words}: {it} {kinds[it]}, and at least {wanted.get(it)} is there"


class Finder(ast.NodeVisitor):
    """The calls of a script that compare, each with the function that it is in."""

    def __init__(self):
        self.owners, self.found = [], []

    def visit_FunctionDef(self, node):
        self.owners.append(node.name)
        self.generic_visit(node)
        self.owners.pop()

    def visit_Call(self, node):
        if COMPARES.search(ast.unparse(node.func)):
            self.found.append((".".join(self.owners), node))
        self.generic_visit(node)


def places_of(script):
    """The places of a script, each by the function that it is in and its number there, with its lines."""
    finder, counts = Finder(), {}
    finder.visit(ast.parse(script.read_text()))
    for owner, node in sorted(finder.found, key=lambda it: (it[1].lineno, it[1].col_offset)):
        counts[owner] = counts.get(owner, 0) + 1
        yield f"{script.relative_to(TOP)} {owner} {counts[owner]}", range(node.lineno, node.end_lineno + 1)


def all_places():
    """The places of all scripts and of what they share."""
    files = [*(TOP / "scripts").glob("check-*"), *(TOP / "scripts").glob("*/*.py")]
    found = {}
    for file in sorted(files):
        if str(file.relative_to(TOP)) not in OWN:
            found.update(places_of(file))
    return found


def failed(noted, found):
    """Those of the places found at which something failed, by the files that were noted."""
    lines = set()
    for file in noted:
        lines.update(file.read_text().splitlines() if file.is_file() else ())
    is_noted = lambda place, span: any(f"{place.split()[0]} {it}" in lines for it in span)  # noqa: E731
    return {place for place, span in found.items() if is_noted(place, span)}


def untried():
    """The places that are not tried, each with the reason: lines of a script, a function, numbers, the command without
    which they are not, and why."""
    found = {}
    for line in UNTRIED.read_text().splitlines():
        where, _, why = line.partition(": ")
        script, owner, *numbers, _, command = where.split()
        found.update({} if shutil.which(command) else {f"{script} {owner} {it}": why for it in numbers})
    return found
