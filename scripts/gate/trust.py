"""What the proofs rest on, as the kit says it of each: above and in the last line of a proof it names what it took as
checked, and the C functions whose contracts it assumes. scripts/prove reads that, ./test prints it at the end, once for
all crates and then what is of some alone, and docs/PROOF.md has it as a block, which must be the same."""

import json
import re

from norigully import TOP, kept
from norigully.crate_list import lines_of

RECORD = "docs/PROOF.md"
BLOCK = re.compile(r"^```kit\n(.*?)^```$", re.M | re.S)
LIBRARIES, MISSING = "statements of the kit's libraries, loaded as the kit has them:", "not said here:"
# What a proof says of its own size. What else its last line has may be what it rests on.
OWN = ("logic", "functions", "tests", "sum")
# Of how many crates it is kept what the kit said, for those whose proofs an earlier run kept.
MOST_KEPT = 500
WIDTH = 118


def short(word):
    """A word of the kit's, of whose names no more than three stand, as in its own lines."""
    key, _, value = word.partition("=")
    names = value.split(",")
    return word if len(names) < 5 else f"{key}={','.join(names[:3])},...({len(names)})"


class Trust:
    """What was said of each crate so far: what a proof rests on, and the libraries that it loaded."""

    def __init__(self, names, folder=None):
        self.names, self.said, self.crate, self.lines, self.loaded = set(names), {}, None, [], []
        self.before = kept.Kept(folder or kept.folder("trust"), MOST_KEPT)

    def read(self, line):
        """Reads a line of `rt ci`, which heads what it says of a crate by `== NAME`."""
        if line.startswith("== "):
            self.crate, self.lines, self.loaded = line[3:].strip(), [], []
        elif line.startswith("rt: "):
            # A check that was killed for memory is made once more.
            self.lines, self.loaded = [], []
        elif found := re.match(r"logic \S+: (libraries=\d+ files=\d+ sum=\w{16})", line):
            self.lines.append(f"logic: {found[1]}, loaded as the kit has it")
        elif found := re.match(r"statements (\w+): modules loaded=(\d+) checked=(\d+)", line):
            self.loaded += [found[1]] if found[2] != "0" else []
            self.lines += [f"statements {found[1]}: checked={found[3]}"] if found[3] != "0" else []
        elif line.startswith("axioms "):
            self.lines.append(line.strip())
        elif line.startswith("logic=proved ") and self.crate in self.names:
            words = " ".join(short(it) for it in line.split() if it.partition("=")[0] not in OWN)
            self.said[self.crate] = [[words, *self.lines], self.loaded]

    def keep(self, name, sum_of):
        """Keeps what was said of a crate, by the sum of all that its proof rests on."""
        if name in self.said:
            self.before.keep(sum_of, json.dumps(self.said[name]).encode())
            self.before.shrink()

    def take(self, name, sum_of):
        """Takes what an earlier run read of a crate, whose proof is kept."""
        if (found := self.before.find(sum_of)) is not None:
            self.said[name] = json.loads(found)

    def text(self):
        """What is said of all crates, and then of some. Where nothing is known of a crate, a line names it."""
        rests = {name: it[0] for name, it in sorted(self.said.items())}
        words = {name: it[0].split() for name, it in rests.items()}
        shared = [it for it in next(iter(words.values()), []) if all(it in of for of in words.values())]
        common = [it for it in next(iter(rests.values()), [])[1:] if all(it in of for of in rests.values())]
        loaded = {it for _, names in self.said.values() for it in names} - self.names
        told, groups = [f"all crates: {' '.join(shared)}", *common, *folded(LIBRARIES, sorted(loaded))], {}
        for name, (_, *lines) in rests.items():
            own = [" ".join(it for it in words[name] if it not in shared), *(it for it in lines if it not in common)]
            if any(own):
                groups.setdefault(tuple(own), []).append(name)
        for (first, *more), names in groups.items():
            told += [f"{', '.join(names)}: {first}", *(f"  {it}" for it in more)]
        if missing := self.names - self.said.keys():
            told += folded(MISSING, sorted(missing))
        return "".join(f"{it}\n" for it in told)


def folded(first, names):
    """Lines that go on with names, as wide as a document may be."""
    lines = [first]
    for name in names:
        if len(lines[-1]) + len(name) >= WIDTH:
            lines.append(" ")
        lines[-1] += f" {name}"
    return lines


def why_other(text):
    """Why what the kit said is not what the document has, or None. Where it was said of some crates alone, of each of
    these the document must say the same."""
    found = BLOCK.search((TOP / RECORD).read_text())
    recorded = found[1] if found else ""
    if text == recorded:
        return None
    _, is_missing, names = text.partition(f"\n{MISSING}")
    if is_missing:
        said = (it for it in lines_of() if it not in names.split())
        other = [it for it in said if rests_of(it, text) != rests_of(it, recorded)]
        return f"{RECORD}: its block ```kit does not say what the kit says of {', '.join(other)}" if other else None
    wrong = [it for it in recorded.splitlines() if it not in text.splitlines()]
    return f"{RECORD}: its block ```kit is not what the kit says{f': it has `{wrong[0]}`' if wrong else ''}"


def rests_of(name, text):
    """All words of such a block that are of a crate."""
    words, is_of = set(), False
    for line in text.splitlines():
        if not line.startswith(" "):
            names = line.partition(": ")[0].split(", ")
            is_of = name in names or not {*names} & lines_of().keys() and not line.startswith((LIBRARIES, MISSING))
            line = line.partition(": ")[2] if name in names or names == ["all crates"] else line
        words.update(line.split() if is_of else ())
    return words
