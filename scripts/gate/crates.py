"""The libraries that the gate left of each crate, whether they are current, and rattle's words to check a crate over
them: for scripts/prove, which marks what it proved, and the checks that take it (check-one, check-mistakes, check-c).

With LIBS=FOLDER the libraries are those of another copy of the repository, which serve as far as its sources are the
same. A mark is a sum of the kit and of the sources, since it says what that kit proved. The sums beside the programs
(programs.py) are others: they have no kit in them. So are those of a check of a mistake, which has no comment, body or
proof of a crate below in them: a crate rests on what those below it state, and the gate proves these themselves.
"""

import os
import pathlib
import re

from gate.functions import read_above
from norigully import TOP, kept, kit
from norigully.crate_list import lines_of, named_in, sources_of, with_those_below

LIBS = pathlib.Path(os.environ.get("LIBS") or TOP).resolve()


class Crate:
    """A line of crates.txt: a crate, its kind if it has one, and the libraries that it names."""

    def __init__(self, name, line, of, top):
        self.name, self.line, self.named, self.of, self.top = name, line, named_in(line), of, top
        self.is_static = "staticlib" in line.partition(":")[0].split()[1:]
        self.folder = top / "crates" / self.name
        self.is_program = (self.folder / "src/main.rt").is_file()

    def deps(self):
        """The crates of this repository that it names."""
        return [self.of[it] for it in self.named if it in self.of]

    def below(self):
        """All crates of this repository that it depends on, lowest first."""
        return [self.of[it] for it in with_those_below([self.name], self.top) if it != self.name]

    def rlib(self):
        return LIBS / f"crates/{self.name}/out/rlib/{self.name}.rlib"

    def made(self):
        """What is built of it. `rt ci` builds no static library, but scripts/check-c does."""
        out = LIBS / f"crates/{self.name}/out"
        if self.is_program:
            return out / self.name
        return out / f"lib{self.name}.a" if self.is_static else self.rlib()

    def mark(self):
        """The file by which the gate says what sources it proved. The kit removes it together with what was built."""
        return self.made().parent / "sources"

    def sources(self, top=None):
        """Its files here or in a copy of the repository, by their paths in the crate and in order."""
        folder, files = sources_of(self.name, top or self.top)
        return {it: pathlib.Path(folder, it) for it in files}

    def sum(self, known):
        """A sum of all that its proof rests on: the kit, its line of crates.txt, its files, and those of the crates
        below. What is known, by the crates' names, is not summed again, and this one is added."""
        if self.name not in known:
            files = [(path, file.read_bytes()) for path, file in self.sources().items()]
            below = [it.sum(known) for it in self.deps()]
            known[self.name] = kept.sum_of(kit.identity(), self.line, files, below)
        return known[self.name]

    def sum_of_check(self, known):
        """A sum of all that a check of a part of it reads, without the kit: its line of crates.txt, its files, and what
        it reads of the crates below. Of these, what is known is not summed again, and theirs are added."""
        files = [(path, file.read_bytes()) for path, file in self.sources().items()]
        return kept.sum_of(self.line, files, [it.sum_above(known) for it in self.deps()])

    def sum_above(self, known):
        """A sum of what the crates above read of it and, through it, of those below."""
        if self.name not in known:
            texts = [(path, read_above(path, file.read_text())) for path, file in self.sources().items()]
            below = [it.sum_above(known) for it in self.deps()]
            known[self.name] = kept.sum_of(self.line, [it for it in texts if it[1] is not None], below)
        return known[self.name]

    def why_not_current(self, known=None):
        """Why what the gate left of it is not of these sources, or None. Its mark says so; where there is
        none, since `rt ci` was called by hand, the dates do. What is known are sums, as in `sum`."""
        if self.mark().is_file():
            is_same = self.mark().read_text() == self.sum({} if known is None else known)
            return None if is_same else f"{self.name} has changed since the gate proved it"
        if not self.made().exists():
            return f"{self.name} is not built"
        here, there = self.sources(), self.sources(LIBS)
        if here.keys() != there.keys() or any(here[it].read_bytes() != there[it].read_bytes() for it in here):
            return f"{self.name} is not the same in {LIBS}"
        if newest(there.values()) > newest([self.made(), *self.made().rglob("*")]):
            return f"{self.name} has changed since it was built"
        return None

    def functions(self):
        """The names by which rattle calls its functions, as its library lists them. A program lists none."""
        parts = self.rlib() / "toolchain/checked.json"
        text = parts.read_text() if parts.is_file() else ""
        found = re.findall(rf'"part/Rattle-{self.name}-proofs\.([^"]*)\.Code"', text)
        return {it.replace(".", "::") for it in found}

    def check(self):
        """rattle's words that check it, in the folder where they run, over the libraries below."""
        at, top = kit.folder(), f"src/{'main' if self.is_program else 'lib'}.rt"
        words = [at / "bin/rattle", "check", "--crate-name", self.name, top]
        for it in ["std", *(it for it in self.named if it not in self.of)]:
            words += ["--extern", f"{it}={at}/rlibs/{it}.rlib"]
        words += ["-L", f"dependency={at}/rlibs"]
        for it in self.deps():
            words += ["--extern", f"{it.name}={it.rlib()}"]
        for it in self.below():
            words += ["-L", f"dependency={it.rlib().parent}"]
        words += ["--antt-project", f"{at}/rattle/logic/antt-project.json", "--logic-built", f"{at}/logic_built"]
        words += ["--links", f"{self.name}=", "--jobs", "1"]
        return words + (["--crate-type", "staticlib"] if self.is_static else [])


def newest(files):
    """When the last of these files was written."""
    return max((it.stat().st_mtime for it in files), default=0)


def listed(top=TOP):
    """The crates of a repository by their names, the lowest layer first."""
    found = {}
    found.update({name: Crate(name, line, found, top) for name, line in lines_of(top).items()})
    return found
