"""What scripts/check-mistakes --self-test shows, in some minutes: that each reason to fail is one; that what is on
record or kept counts no longer once something changes that it rests on, and counts on where something else does; that a
mistake is then still refused; and that the change of a byte which docs/PROOF.md asks its readers to make is refused.

With the word `record` it tries only what is said of the record, over libraries that it proves itself. All else needs
those that the gate left.
"""

import contextlib
import functools
import io
import os
import pathlib
import re
import shutil
import subprocess
import tempfile
import threading

from gate import crates
from gate.checks import Checks, module_of
from gate.functions import OF_A_PROOF, read_above
from norigully import crate_list, kit

# Where the libraries are, which the self-test looks for elsewhere now and then.
LIBRARIES = crates.LIBS
# The page with a change that its reader is to make, and what it says of that.
PROOF = crates.TOP / "docs/PROOF.md"
CHANGE = re.compile(
    r"in `(\w+)::\w+`,\s+in `([\w/.]+)`,\s+make `([^`]+)`\s+into `([^`]+)`\.\s+Then\s+"
    r"`scripts/check-one (\w+) ([\w:]+)`\s+ends\s+with\s+status\s+1 .*?:\n\n(.*?)\n\n",
    re.S,
)
# Edits: one that means the same as the code, one that does not apply, a mistake, and a second one in its function.
PLANTED = {
    "means_the_same": ("src/config.rt", "self.store_success_output", "self.store_success_output & true"),
    "does_not_apply": ("src/config.rt", "self.store_skipped_output", "self.store_failure_output"),
    "ends_in_a_semicolon": ("src/netstring.rt", ':", text, ","])', ':", text, ";"])'),
    "has_no_colon": ("src/netstring.rt", ':", text, ","])', '", text, ","])'),
}
REFUSED = ("ends_in_a_semicolon", "has_no_colon")
# Two with a twin, of which the second is wrong.
TWINS = {
    "other_condition": ("src/config.rt", "if is_success {", "if !is_success {", "if is_success & true {"),
    "wrong_twin": ("src/config.rt", "if is_success {", "if true {", "if is_success & false {"),
}
# Changes of this crate that mean the same and reopen its own mistakes, and no others.
BELOW = "writers"
SAME = {
    "a comment of a definition": ("specs/Texts.antt", "-- the text itself,", "-- a text itself,"),
    "a comment of code": ("src/text.rt", "/// No text.\n", "// The unit.\n\n/// No text.\n"),
    "a doc comment": ("src/text.rt", "/// A value that is", "/// What is"),
    "a body": ("src/text.rt", "w.write_str(self)\n", "let text: &str = self;\n        w.write_str(text)\n"),
    "an answer": (
        "proofs/laws/delivery_law/Answers.antt",
        "fault before after h = stopped_delivers g.W.Write.contents a b old new text\n    before after fault h",
        "fault before after k = stopped_delivers g.W.Write.contents a b old new text\n    before after fault k",
    ),
}
# Those that reopen all mistakes of the crates above, too.
OTHER = {
    "a doc comment that a derive may read": ("src/write_str.rt", "/// The device failed.", "/// A device failed."),
    "the body of an unfoldable definition": ("specs/Texts.antt", "plain t = t", "plain t = t ++ []"),
    "a public definition": ("specs/Writer.antt", "successor n = (n + 1)", "successor n = (n + 2)"),
    "a private definition": ("specs/Texts.antt", "-- the texts of", "none : Text\nnone = []\n\n-- the texts of"),
    "a lemma": ("proofs/lemmas/When.antt", "when_not true text = refl", "when_not true _ = refl"),
    "a contract": ("src/text.rt", "(text self.now) result", "[] result"),
    "a constant": ("src/write_str/pending_bytes.rt", "CAPACITY: usize = 8192", "CAPACITY: usize = 8193"),
    "a derive": ("src/text.rt", "#[derive(Clone, Copy, Debug)]", "#[derive(Clone, Debug)]"),
    "its line of crates.txt": ("../../crates.txt", "writers: thiserror", "writers: hex thiserror"),
}
# A mistake of a crate above, in a function that calls one of that crate.
ABOVE, TRIED = "styled_text", "styled_text/suffix_of_a_plain_style"
# Texts of a file with a place for a number, and whether what the crates above read of it has that.
TEXTS = (
    ("src/a.rt", "fn f() {\n    @;\n}\n", False),
    ("src/a.rt", "const fn f() {\n    @;\n}\n", True),
    ("src/a.rt", "impl A for B {\n    fn f() {\n        @\n    }\n}\n", False),
    ("src/a.rt", "pub trait A {\n    fn f() {\n        @\n    }\n}\n", True),
    ("src/a.rt", "#[cycle(of = 2)]\nfn f() {\n    @;\n}\n", True),
    ("src/a.rt", "macro_rules! a {}\nfn f() {\n    @;\n}\n", True),
    ("src/a.rt", "enum A {\n    /// A @.\n    B,\n}\n", False),
    ("src/a.rt", 'const A: &str = "\n// @\n";\n', True),
    ("src/a.rt", "const A: char = '\"';\n// @\n", False),
    ("src/a.rt", "/*\n// @ */\n", True),
    ("specs/A.antt", "-- @\na = 1\n", False),
    ("specs/A.antt", "a = @\n", True),
    ("proofs/f/Answers.antt", "a = @\n", False),
)


def write_planted(folder, names):
    for name in names:
        path, old, new, *right = {**PLANTED, **TWINS}[name]
        edit = f"file: {path}\nold: {old}\nnew: {new}\n" + "".join(f"right: {it}\n" for it in right)
        (folder / f"{name}.edit").write_text(edit)


def copy_of(names, folder):
    """A repository of these crates alone."""
    lines = crate_list.lines_of()
    for it in names:
        crate_list.copy_crate(it, folder)
    (folder / "crates.txt").write_text("".join(f"{lines[it]}\n" for it in names))
    shutil.copy(crates.TOP / "HANDLES", folder)
    return folder


class Reopened:
    """Which mistakes are tried again where something changes in a crate below, and whether one that is not would be
    refused: over libraries that this proves."""

    def __init__(self, checks, tested, made):
        self.checks, self.tested, self.made = checks, tested, made

    def check_texts(self):
        """What is left out of a file, and that no file names one that is left out."""
        for path, text, is_read in TEXTS:
            one, two = (read_above(path, text.replace("@", it)) for it in "12")
            self.checks.expect((one != two) == is_read, f"{path}: it is {one != two} that @ is read in {text!r}")
        named = "|".join(it.partition(".")[0] for it in OF_A_PROOF)
        for crate in crates.listed().values():
            for path, file in crate.sources().items():
                found = re.search(rf"(?:\.|::)(?:{named})\b", file.read_text())
                self.checks.expect(not found, f"crates/{crate.name}/{path} names another function's proof")

    def lines(self, top):
        """The lines of the record of all mistakes, over the crates of a copy."""
        listed, record = crates.listed(top), self.tested.Record(self.made / "none.txt")
        folders = ((it, crates.TOP / "crates" / it.name / "mistakes") for it in listed.values())
        return {name: record.line(crate, name, text) for crate, name, text in self.tested.edits_in(folders)}

    def check_record(self):
        """Each change reopens the mistakes of its crate, and those of the crates above where they may read it."""
        copy = copy_of(crate_list.lines_of(), self.made / "crates")
        before, listed = self.lines(copy), crates.listed()
        above = {it.name for it in listed.values() if BELOW in [below.name for below in it.below()]}
        for changes, wanted in (SAME, {BELOW}), (OTHER, {BELOW} | above):
            for what, (path, old, new) in changes.items():
                file = copy / "crates" / BELOW / path
                text = file.read_text()
                self.checks.expect(text.count(old) == 1, f"{what}: {file} has no one place `{old}`")
                file.write_text(text.replace(old, new))
                after = self.lines(copy)
                file.write_text(text)
                reopened = {it for it in before if before[it] != after[it]}
                right = {it for it in before if it.partition("/")[0] in wanted}
                wrong = " ".join(sorted(reopened ^ right)[:4])
                self.checks.expect(reopened == right, f"{what} of {BELOW} reopens {len(reopened)} mistakes: {wrong}")

    def check_tried_anew(self):
        """Over a library with all changes that reopen no mistake above, one is tried, and refused at its goal."""
        crate = crates.listed()[ABOVE]
        copy = copy_of([it.name for it in crate.below()], self.made / "anew")
        for path, old, new in SAME.values():
            file = copy / "crates" / BELOW / path
            file.write_text(file.read_text().replace(old, new))
        how = {"stdin": subprocess.DEVNULL, "stdout": subprocess.PIPE, "stderr": subprocess.STDOUT, "text": True}
        ran = subprocess.run(["rt", "ci"], cwd=copy, env={**os.environ, "RT_JOBS": str(kit.jobs())}, **how)
        self.checks.expect(ran.returncode == 0, f"what means the same is not proved: {ran.stdout[-2000:]}")
        crates.LIBS, failures = copy, []
        group = [it for it in self.tested.mistakes.read(crate, crate.folder / "mistakes", failures) if it.name == TRIED]
        said = [line for _, _, line in self.tested.results(group)] if group else failures
        crates.LIBS = LIBRARIES
        _, _, how = self.tested.Record().lines.get(TRIED, "").partition(" ")[2].partition(" ")
        self.checks.expect(said == [f"{TRIED}: refused: {how}"], f"{said}, and on record is: {how}")


class Failures:
    """Whether each reason to fail is one, and whether what is kept is what holds: over the libraries of the gate."""

    def __init__(self, checks, tested, made):
        self.checks, self.tested, self.made, self.crate = checks, tested, made, crates.listed()["store_text"]
        self.jobs = kit.jobs()

    def refusals(self):
        return self.tested.Refusals(self.made / "kept", False, self.record())

    def expect(self, folder, tried, refused, *words):
        """Whether this many of a folder's mistakes are tried now, this many are refused, and the failures have these
        words."""
        run = self.tested.Run(self.refusals(), threading.Semaphore(self.jobs), 1)
        with contextlib.redirect_stdout(io.StringIO()):
            self.tested.try_all([(self.crate, folder)], self.jobs, run)
        are_told = len(run.failures) == len(words) and all(any(it in why for why in run.failures) for it in words)
        wanted, found = f"{tried} tried, {refused} refused, {words}", f"{run.tried}, {run.refused}, {run.failures}"
        self.checks.expect((run.tried, run.refused) == (tried, refused) and are_told, f"{wanted}; there are {found}")

    def record(self):
        return self.tested.Record(self.made / "record.txt")

    def check_failures(self):
        names = "planted", "refused", "twins", "empty", "other"
        planted, refused, twins, empty, other = (self.made / it for it in names)
        for folder in (planted, refused, twins, empty, other / "crates/out_of_memory/out/rlib"):
            folder.mkdir(parents=True)
        write_planted(planted, PLANTED)
        write_planted(refused, REFUSED)
        write_planted(twins, TWINS)
        same, stale = "means_the_same: NOT REFUSED", "does_not_apply: an `old:` text stands in src/config.rt 0 times"
        self.expect(planted, 3, 2, same, stale)
        self.expect(refused, 0, 2)
        self.expect(twins, 2, 1, "wrong_twin: its `right:` does not prove")
        self.expect(empty, 0, 0, "there is no mistake in")
        crates.LIBS = other
        self.expect(planted, 0, 0, stale, "out_of_memory is not built")
        self.crate.of["out_of_memory"].mark().write_text("of other sources")
        self.expect(planted, 0, 0, stale, "out_of_memory has changed since the gate proved it")

    def check_kept(self):
        """What was kept is there for the same bytes alone of the mistake and the crate."""
        copy, edit = self.made / "copy", self.made / f"refused/{REFUSED[0]}.edit"
        copy_of([it.name for it in [*self.crate.below(), self.crate]], copy)

        def is_known(edit=edit):
            """Whether it is kept, and whether it is on record, that the mistake was refused."""
            crate, name = crates.listed(copy)["store_text"], f"store_text/{edit.stem}"
            refusals = self.refusals()
            found = refusals.kept(crate, name, edit.read_bytes()), refusals.record.has(crate, name, edit.read_bytes())
            return found[0] is not None, found[1]

        self.checks.expect(is_known() == (True, False), "a refusal is not kept")
        folders = [(self.crate, self.made / "refused"), (self.crate, self.made / "planted")]
        self.tested.write_record(folders, self.refusals())
        self.checks.expect(is_known() == (True, True), "a refusal is not on record")
        same = self.made / "planted/means_the_same.edit"
        self.checks.expect(is_known(same) == (False, False), "it is known that one is not refused")
        crate, line = copy / "crates/store_text", b"store_text: "
        changes = [(copy / "crates.txt", line, line + b"hex "), (edit, b"file:", b"\nfile:")]
        files = [crate / "src/config.rt", crate / "proofs/lemmas.antt", next((crate / "specs").glob("*.antt"))]
        for file, old, new in [*changes, *((it, b"\n", b"\n\n") for it in files)]:
            before = file.read_bytes()
            file.write_bytes(before.replace(old, new, 1))
            self.checks.expect(is_known() == (False, False), f"a refusal is known where {file} has changed")
            file.write_bytes(before)
            self.checks.expect(is_known() == (True, True), f"a refusal is not known where {file} has its bytes again")

    def check_page(self):
        """The change of a byte that docs/PROOF.md has its reader make: check-one ends and says what stands there."""
        step = CHANGE.search(PROOF.read_text())
        self.checks.expect(step, f"{PROOF} asks for no change")
        if step is None:
            return
        owner, path, old, new, crate, name, said = step.groups()
        crates.LIBS = LIBRARIES
        copy = copy_of(crate_list.with_those_below([crate]), self.made / "page")
        shutil.copytree(crates.TOP / "scripts", copy / "scripts")
        front, impl, back = (copy / path).read_text().partition(f"impl WriteText for {owner} ")
        self.checks.expect(old in back, f"{PROOF}: {path} has no {old} in {owner}")
        (copy / path).write_text(front + impl + back.replace(old, new, 1))
        how = {"stdin": subprocess.DEVNULL, "capture_output": True, "env": {**os.environ, "LIBS": str(LIBRARIES)}}
        ran = subprocess.run([copy / "scripts/check-one", crate, name], text=True, errors="replace", **how)
        self.checks.expect(ran.returncode == 1, f"{PROOF}: check-one ends with status {ran.returncode}: {ran.stderr}")
        for line in said.strip().splitlines():
            wanted = ".*".join(re.escape(it) for it in line.strip().split(".."))
            is_said = re.search(wanted, ran.stdout)
            self.checks.expect(is_said, f"{PROOF}: check-one does not say `{line.strip()}`: {ran.stdout}")


def made_alone(part, _checks):
    part()


def main(is_of_record):
    """Tries all, or only what is said of the record, and ends the script."""
    checks, tested = Checks("mistakes --self-test"), module_of(crates.TOP / "scripts/check-mistakes")
    with tempfile.TemporaryDirectory() as made:
        made = pathlib.Path(made)
        reopened, failures = Reopened(checks, tested, made), Failures(checks, tested, made)
        parts = [reopened.check_texts, reopened.check_record, reopened.check_tried_anew]
        if not is_of_record:
            parts += [failures.check_failures, failures.check_kept, failures.check_page]
        checks.each([functools.partial(made_alone, it) for it in parts])
    checks.end()
