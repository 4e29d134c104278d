"""Definitions of specs/ that a definition reaches: each with its file and line, in an order to read them in. A file is
read by its columns: what begins a line at its left edge declares a name or is an equation of the one above, and lines
below it that are indented go on with it."""

import functools
import re

from norigully import TOP

CRATES = TOP / "crates"
# What is no comment, and a comment; a name that is taken from another file.
COMMENT = re.compile(r'("(?:[^"\\]|\\.)*")|--[^\n]*')
USE = re.compile(r"^(?:(?:unfoldable|abbrev|pub) )*use ([\w.]+)\.(?:\{((?:[^{}]|\{[^{}]*\})*)\}|(\S+)$)", re.M)
WORD = re.compile(r'"(?:[^"\\]|\\.)*"|[^\s(){},.;"]+')
# The first line of a declaration.
HEAD = re.compile(r"(?:(?:pub|abbrev|unfoldable|opaque|instance) )*(?:(record|data) )?([^\s:({]+)(?=( :)?)")
# What carries a proof, which a reader need not see: of a module of proofs, or with a proof as its value.
LEMMA = re.compile(r"\bunfolding\b|^\s*= refl$|∙ ap ")
# What is read first of what a law reaches: what a report is, then the text of each kind of event, and last the text of
# a response, which is the longest.
REPORT, EVENTS, LAST = (
    ("Rattle.console_reporter.specs.Report", "report"),
    ("Rattle.console_reporter.specs.Report", "event_parts"),
    ("Rattle.info_text.specs.Response", "info_response_text"),
)


def split(names):
    """The names of a list that are not within braces of their own."""
    found, depth, word = [], 0, ""
    for sign in names + ",":
        depth += (sign == "{") - (sign == "}")
        if sign == "," and not depth:
            found.append(" ".join(word.split()))
            word = ""
        else:
            word += sign
    return [it for it in found if it]


def used(path, names):
    """What a `use` names, by the names that it gives: the module of each, and its name there."""
    for name in split(names):
        if within := re.fullmatch(r"(.*)\.\{(.*)\}", name):
            yield from used(f"{path}.{within[1]}", within[2])
        else:
            whole, _, here = name.partition(" as ")
            module, _, last = f"{path}.{whole}".rpartition(".")
            yield here or last, (module, last)


class File:
    """What a file takes from others, and its definitions: for each name its first line, and all its lines, behind those
    of the `module _` that gives it parameters, and comments."""

    def __init__(self, path):
        self.path, text = path, path.read_text()
        self.taken = {name: it for use in USE.finditer(text) for name, it in used(use[1], use[2] or use[3])}
        blank = USE.sub(lambda it: "\n" * it[0].count("\n"), text)
        self.defined, self.lines, name, above, given = {}, {}, None, [], []
        for number, line in enumerate(blank.split("\n"), 1):
            if given and not given[-1].endswith("where"):
                given.append(line)
                continue
            if line.strip() and not line.startswith(" "):
                given = [line] if line.startswith("module _ ") else []
            inner = line[2:] if given else line
            if given[-1:] == [line] or not line.strip() or inner.startswith(("--", "mod ", "pub mod ", "infix")):
                above = [*above, line] if inner.startswith("--") else []
                continue
            head = not inner.startswith(" ") and HEAD.match(inner)
            if head and head[2] not in self.defined and (head[1] or head[3] or inner.startswith("instance")):
                name = head[2]
                self.lines[name], self.defined[name] = number, [*given, *above]
            if name:
                self.defined[name].append(line)
            above = []


@functools.cache
def file_of(module):
    """The file of a module here, or None where it is the kit's, is made of a source, or is within another."""
    path = CRATES / f"{module.removeprefix('Rattle.').replace('.', '/')}.antt"
    return File(path) if path.is_file() else None


def end_of(module, name):
    """Where a name leads that files pass on: the module and the name there."""
    while (file := file_of(module)) and name not in file.defined and name in file.taken:
        module, name = file.taken[name]
    return module, name


def place_of(module, name):
    """The file and the name of the definition that this leads to or is within; None where it is in no file here."""
    module, name = end_of(module, name)
    if (file := file_of(module)) is None:
        above, _, last = module.rpartition(".")
        return (file_of(above), last) if file_of(above) and last in file_of(above).defined else None
    if name in file.defined:
        return file, name
    within = re.compile(rf"^ .*(?<!\S){re.escape(name)} :", re.M)
    return next(((file, it) for it, lines in file.defined.items() if within.search("\n".join(lines))), None)


def bare(lines):
    """A definition without its comments."""
    kept = (COMMENT.sub(lambda it: it[1] or "", line).rstrip() for line in lines)
    return [it for it in kept if it]


def crate_of(place):
    return place[0].path.relative_to(CRATES).parts[0]


def is_lemma(file, name):
    text = "\n".join(bare(file.defined[name]))
    return "proofs" in file.path.parts or re.match(r"(free|ends)-", name) is not None or bool(LEMMA.search(text))


class Reached:
    """All definitions that one reaches, itself too: each by its file and name, and below it those that its own lines
    name, in their order. Lemmas are those that carry a proof, and are not followed; made are types of this repository
    that the kit makes of sources; other names are the kit's."""

    def __init__(self, module, name):
        self.first, self.below, self.lemmas, self.made, self.of_kit = place_of(module, name), {}, set(), set(), set()
        waiting, own = [self.first], {it.name for it in CRATES.iterdir()}
        while waiting:
            file, name = place = waiting.pop()
            if place in self.below or place in self.lemmas:
                continue
            if place != self.first and is_lemma(file, name):
                self.lemmas.add(place)
                continue
            self.below[place] = found = []
            for word in WORD.findall("\n".join(bare(file.defined[name]))):
                for it in (word, f"◌{word}◌"):
                    if to := (file, it) if it in file.defined else it in file.taken and place_of(*file.taken[it]):
                        found.append(to)
                    elif it in file.taken:
                        last = end_of(*file.taken[it])
                        (self.made if last[0].split(".")[1] in own else self.of_kit).add(last)
            waiting += found

    def in_order(self):
        """The definitions as one reads them: the law, what a report is, each kind of event with all that it needs and
        that was not read before, the rest of the law in the same way, and last responses."""
        last, report = place_of(*LAST), self.of_crate(place_of(*REPORT))
        found = dict.fromkeys([self.first, *report])
        for start in (place_of(*EVENTS), *report, *self.of_crate(self.first)):
            self.read(start, found, last)
        self.read(last, found, None)
        return [*found]

    def of_crate(self, start):
        """A definition and those of its crate that it reaches, the nearest first."""
        found = [start] if start in self.below else []
        for it in found:
            new = (to for to in self.below[it] if to in self.below and crate_of(to) == crate_of(start))
            found += (to for to in dict.fromkeys(new) if to not in found)
        return found

    def read(self, start, found, last):
        """Adds a definition and, one after another, what it names with all below that."""
        if start in self.below and start != last:
            found.setdefault(start)
            for it in self.below[start]:
                if it not in found:
                    self.read(it, found, last)


def sizes(found):
    """How many definitions these are, in how many files, and their lines and words without comments."""
    texts = [bare(file.defined[name]) for file, name in found]
    words = sum(len(line.split()) for lines in texts for line in lines)
    return len(found), len({file.path for file, _ in found}), sum(map(len, texts)), words
