"""The mistakes of a crate, crates/NAME/mistakes/*.edit, and the copy of the crate in which they are made together: for
scripts/check-mistakes, whose head says how they are tried.
"""

import copy
import functools
import re
import shutil

from gate.functions import emptied, functions, head_above, name_at
from norigully.crate_list import PARTS

# The proof of a function that has no body.
HOLE = """use Rattle.{crate}.proofs.{path}.Statement.{{statement}}

pub {name}_spec : {{M : Type 1}} → statement M
{name}_spec = ?
"""


class DoesNotApply(Exception):
    """Why a mistake, or a copy of a function, cannot be made."""


class Mistake:
    """A mistake: its crate, its name, the functions that are wrong by it, and each `old:` and `new:` with its file.
    Where it has a line `right:`, the edits of its twin have that text in the place of the `new:` above it."""

    def __init__(self, crate, edit):
        self.crate, self.name, self.edits, self.functions = crate, f"{crate.name}/{edit.stem}", [], set()
        self.text, self.right_edits, path, old = edit.read_bytes(), [], None, None
        for line in self.text.decode().splitlines():
            kind, _, rest = line.partition(":")
            if kind == "file":
                path = rest.strip()
            elif kind == "at":
                self.functions.update(rest.split())
            elif kind == "old":
                old = rest.removeprefix(" ")
            elif kind == "new" and path and old:
                self.edits.append((path, old, rest.removeprefix(" ")))
                self.right_edits.append(self.edits[-1])
            elif kind == "right" and self.edits:
                self.right_edits[-1] = (*self.edits[-1][:2], rest.removeprefix(" "))
            elif line.strip():
                raise DoesNotApply(f"{self.name}: no mistake has this line: {line}")
        found = set()
        self.apply(sources_of(crate), None if self.functions else found)
        self.functions = self.functions or {self.known(it) for it in found}
        # The copy of its function that it is made in, if it is not made in the function itself.
        self.copy = None

    def twin(self):
        """The same change with the right text, by which no function is wrong; None where no line says it."""
        if self.right_edits == self.edits:
            return None
        twin = copy.copy(self)
        twin.name, twin.edits, twin.copy = f"{self.name}, right", self.right_edits, None
        return twin

    def tried(self):
        """The functions of which the prover is to refuse one."""
        return {self.copy.name} if self.copy else self.functions

    def known(self, name):
        """The function's name as rattle has it."""
        found = known_as(self.crate, name)
        if len(found) != 1:
            raise DoesNotApply(f"{self.name}: rattle knows no {name}, but {found}: name the function in a line `at:`")
        return found[0]

    def apply(self, texts, found=None):
        """The texts of the files with this mistake, by their paths. The functions that change go to those found."""
        texts = dict(texts)
        if not any(old != new for _, old, new in self.edits):
            raise DoesNotApply(f"{self.name}: it changes nothing")
        for path, old, new in self.edits:
            text = texts.get(path, "")
            if text.count(old) != 1:
                count = text.count(old)
                raise DoesNotApply(f"{self.name}: an `old:` text stands in {path} {count} times, and not once")
            if found is not None:
                name = name_at(text, text.index(old) + len(old), path)
                if name is None:
                    raise DoesNotApply(f"{path}: no function stands round the place: name it in a line `at:`")
                found.add(name)
            texts[path] = text.replace(old, new)
        return texts

    def is_within_functions(self):
        """Whether it changes nothing but functions. What is around them, as a constant, may be read by others, and
        could make those wrong as well."""
        texts = sources_of(self.crate)
        for path, old, new in self.edits:
            text = texts[path]
            if not any(it.start <= text.index(old) < it.past() for it in functions(text)):
                return False
            texts[path] = text.replace(old, new)
        return True


class Copy:
    """A copy of the function that a mistake changes, under another name and with a copy of its proof. A method of a
    trait has none, and neither has a function that calls itself, which the copy would call."""

    def __init__(self, mistake, suffix):
        path, text = mistake.edits[0][0], sources_of(mistake.crate)[mistake.edits[0][0]]
        if len(mistake.functions) != 1 or {it for it, _, _ in mistake.edits} != {path}:
            raise DoesNotApply(mistake.name)
        self.mistake, self.path, (self.of,) = mistake, path, mistake.functions
        names = []
        for it in functions(text):
            whole = text[it.above : it.past()]
            if all(whole.count(old) == 1 for _, old, _ in mistake.edits):
                break
            names.append(it.name)
        else:
            raise DoesNotApply(mistake.name)
        # A file may have methods of one name.
        self.place = names.count(it.name)
        is_of_trait = bool(it.indent) and " for " in head_above(text, it.start)
        owner = re.escape(self.of.split("::")[-2].partition("+")[0]) if "::" in self.of else "Self"
        itself = rf"(?:(?<![.\w:])|\bself\.|\b(?:Self|{owner})::){it.name}(?:\(|::<)"
        calls_itself = re.search(itself, text[it.body : it.end])
        if is_of_trait or calls_itself or "#[cycle" in whole:
            raise DoesNotApply(mistake.name)
        self.own, self.whole, self.changed = it.name, whole, True
        self.new = f"{self.own}_{suffix}"
        self.name = self.of.removesuffix(self.own) + self.new

    def right(self):
        """A copy without the mistake: that it is not refused shows that copies are as good as the function."""
        made = Copy(self.mistake, "right")
        made.changed = False
        return made

    def text(self):
        """Its text, without the comment that says what it is for."""
        text = self.whole
        for _, old, new in self.mistake.edits if self.changed else ():
            text = text.replace(old, new)
        lines = re.sub(rf"\bfn {self.own}\b", f"fn {self.new}", text).splitlines(True)
        return "".join(it for it in lines if not it.lstrip().startswith("///"))

    def write_proof(self, made):
        """Copies the function's proof in the folder of the crate that is made."""
        proof = made / "proofs" / self.of.replace("::", "/")
        for file in proof.rglob("*.antt"):
            text = file.read_text().replace(f".{dotted(self.of)}.", f".{dotted(self.name)}.")
            to = made / "proofs" / self.name.replace("::", "/") / file.relative_to(proof)
            to.parent.mkdir(parents=True, exist_ok=True)
            to.write_text(re.sub(rf"\b{self.own}_spec\b", f"{self.new}_spec", text))


def known_as(crate, name):
    """The names by which rattle may know a function: a method is of its type's module, and of the type with its
    arguments if these are none of the impl's own."""
    names = names_of(crate)
    if name in names or not names:
        return [name]
    owner, own = ["", *name.split("::")][-2:]
    return [it for it in names if re.fullmatch(rf"(?:\w+::)*{re.escape(owner)}(?:\+[^:]*)?::{own}", it)]


@functools.cache
def names_of(crate):
    """The names by which rattle calls a crate's functions."""
    return crate.functions()


def sources_of(crate):
    """The texts of a crate's code, by their paths."""
    return {path: file.read_text() for path, file in crate.sources().items() if path.startswith("src/")}


def dotted(name):
    return name.replace("::", ".")


def read(crate, folder, failures):
    """The mistakes of a folder. Why one does not apply is added to the failures."""
    found = []
    for edit in sorted(folder.glob("*.edit")):
        try:
            found.append(Mistake(crate, edit))
        except DoesNotApply as why:
            failures.append(str(why))
    return found


def copy_for(mistake, group):
    """A copy of its function for a mistake, if it can be made in one beside this group."""
    try:
        return Copy(mistake, f"mistake_{len(group)}")
    except DoesNotApply:
        return None


def grouped(mistakes):
    """The mistakes in few groups, none with a function twice but for those that are made in a copy of theirs."""
    alone = [[it] for it in mistakes if not it.is_within_functions()]
    groups = []
    for mistake in (it for it in mistakes if [it] not in alone):
        free = (it for it in groups if not any(other.tried() & mistake.functions for other in it))
        group = next(free, None)
        if groups and group is not groups[0] and (copy := copy_for(mistake, groups[0])):
            mistake.copy, group = copy, groups[0]
        if group is None:
            groups.append(group := [])
        group.append(mistake)
    return groups + alone


def rights_of(mistakes):
    """A copy without a mistake of each function that one of these mistakes is made in a copy of."""
    return list({it.copy.of: it.copy.right() for it in mistakes if it.copy}.values())


def made_texts(mistakes, copies):
    """The texts of the crate with these mistakes and these copies of functions."""
    texts = sources_of(mistakes[0].crate)
    for mistake in mistakes:
        texts = texts if mistake.copy else mistake.apply(texts)
    for it in copies:
        text = texts[it.path]
        found = [other.past() for other in functions(text) if other.name == it.own]
        if len(found) <= it.place:
            raise DoesNotApply(it.mistake.name)
        past = found[it.place]
        texts[it.path] = f"{text[:past]}\n{it.text()}{text[past:]}"
    return texts


def without_bodies(crate, texts, kept):
    """The texts without the bodies of all functions but those kept, and the names of those that lost theirs: `rt ci`
    has proved them, and no other rests on a body."""
    names, made = [], {}
    for path, text in texts.items():

        def is_emptied(text, it):
            known, above = known_as(crate, name_at(text, it.body, path)), text[it.above : it.start]
            if len(known) != 1 or known[0] not in names_of(crate) or known[0] in kept:
                return False
            if "#[test]" in above or "#[cycle" in above:
                return False
            names.append(known[0])
            return True

        made[path] = emptied(text, is_emptied)
    return made, names


def write_hole(crate, made, name):
    """Has a function's proof be a hole."""
    proof, own = made / "proofs" / name.replace("::", "/"), name.rpartition("::")[2]
    proof.mkdir(parents=True, exist_ok=True)
    for file in ("Invariants.antt", "Answers.antt"):
        (proof / file).unlink(missing_ok=True)
    (proof / "Proof.antt").write_text(HOLE.format(crate=crate.name, path=dotted(name), name=own))


def make(mistakes, made, empties):
    """Makes these mistakes of a crate together in a folder, with the bodies of other functions or without, and answers
    the names of the functions that the prover is to try, and of those that are holes."""
    crate, rights = mistakes[0].crate, rights_of(mistakes)
    copies = [*(it.copy for it in mistakes if it.copy), *rights]
    names = {name for it in mistakes for name in it.tried()} | {it.name for it in rights}
    texts, holes = made_texts(mistakes, copies), []
    if empties:
        texts, holes = without_bodies(crate, texts, names)
    for part in PARTS:
        if (crate.folder / part).is_dir():
            shutil.copytree(crate.folder / part, made / part)
    for it in copies:
        it.write_proof(made)
    for name in holes:
        write_hole(crate, made, name)
    for path, text in texts.items():
        (made / path).write_text(text)
    return sorted(names), holes
