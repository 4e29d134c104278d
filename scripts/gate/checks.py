"""What the check scripts share: what they need before they begin, and how they count what they found."""

import collections
import multiprocessing
import os
import re
import shutil
import signal
import subprocess
import sys
import traceback
from importlib.machinery import SourceFileLoader
from importlib.util import module_from_spec, spec_from_loader

from gate import places
from norigully import TOP, kit
from norigully.programs import note_sources, program, sum_of_sources

CRATES = TOP / "crates"
CASES = TOP / "cases"
REPORT, NORIGULLY = program("report"), program("norigully")


def need_program(program, makes="./build makes it"):
    """Ends the script where there is no such program."""
    if not os.access(program, os.X_OK):
        sys.exit(f"{sys.argv[0]}: there is no program {program}: {makes}")


def take_signals():
    """Lets each signal reach what is tried: a shell has what it starts behind `&` ignore Ctrl-C and SIGQUIT, nohup a
    hangup, and what is started here would inherit that. This script itself goes on ignoring them."""
    for number in (signal.SIGINT, signal.SIGQUIT, signal.SIGHUP, signal.SIGTERM, signal.SIGTSTP):
        if signal.getsignal(number) is signal.SIG_IGN:
            signal.signal(number, lambda _number, _frame: None)


def end_at_ctrl_c():
    """Has Ctrl-C end this process without a word, which the one that started it says."""
    signal.signal(signal.SIGINT, lambda number, _frame: os._exit(128 + number))


def need_tool(tool):
    """Ends the script where there is no such command."""
    if not shutil.which(tool):
        sys.exit(f"{sys.argv[0]}: there is no {tool} on the PATH")


def build_shim(folder):
    """Builds the library that changes the calls of a program (faults.c), and returns where it is."""
    need_tool("cc")
    made = folder / "faults.so"
    source = TOP / "scripts/gate/faults.c"
    subprocess.run(["cc", "-shared", "-fPIC", "-O1", "-o", made, source, "-ldl"], check=True)
    return made


def cases_in(folder="printed", names="*"):
    """The files of the words of the cases in a folder of cases/. It ends the script where there is none."""
    found = sorted((CASES / folder).glob(f"{names}.args"))
    return found or sys.exit(f"{sys.argv[0]}: there is no case cases/{folder}/{names}")


def case_words(args):
    """The words of a case, which are in NAME.args: one a line, `{}` for its scene."""
    return args.read_text().split("\n")[:-1]


def module_of(script):
    """The functions of a script, which prints nothing and ends nothing: a process for each call would take minutes."""
    loader = SourceFileLoader(script.name, str(script))
    module = module_from_spec(spec_from_loader(script.name, loader))
    loader.exec_module(module)
    return module


def words_of(file, name):
    """The words in the equation of a definition of specs/, as in `(codes "final", key.Final)`."""
    found = re.search(rf"^{name} .*?=\n(.*?)(?:\n\n|\Z)", (CRATES / file).read_text(), re.M | re.S)
    words = set(re.findall(r'codes "(.*?)"', found[1] if found else ""))
    return words or sys.exit(f"{sys.argv[0]}: {file} has no word in {name}")


def line_words():
    """The words of all kinds of line: `config`, and those of the rows of lines that are events, as in `(codes "run",
    exactly 5 ..)`."""
    file = "scene_reader/specs/EventLines.antt"
    found = re.findall(r'^ +(?:∷ )?\(codes "(.*?)", ', (CRATES / file).read_text(), re.M)
    return {"config", *found} if found else sys.exit(f"{sys.argv[0]}: {file} has no kind of line")


def copy_of_run(folder, programs):
    """A folder with ./run, what it needs, and these programs by their names as if they had just been built."""
    copy_scripts(folder)
    (folder / "crates.txt").write_text("".join(f"{name}:\n" for name in programs))
    for name, made in programs.items():
        (folder / "crates" / name / "out").mkdir(parents=True)
        shutil.copy(made, program(name, folder))
        note_sources(name, sum_of_sources(name, folder), folder)


def copy_scripts(folder):
    """Copies ./run, ./build and what they share."""
    shutil.copytree(TOP / "scripts/norigully", folder / "scripts/norigully")
    for name in ("run", "build"):
        shutil.copy(TOP / name, folder)


class Checks:
    """Counts what was checked and what failed, and what was checked by its kind."""

    def __init__(self, name):
        self.name, self.done, self.failed, self.kinds = name, 0, 0, collections.Counter()

    def expect(self, holds, message):
        """Prints the message if this does not hold."""
        self.done += 1
        self.kinds[places.kind()] += 1
        if not holds:
            self.failed += 1
            print(f"FAILED: {message}", flush=True)
            places.note_failure()

    def side_by_side(self, calls):
        """Makes these calls with checks of their own, each in a process, as many at a time as processors allow. What
        they count is counted here."""
        with multiprocessing.get_context("fork").Pool(kit.jobs(), end_at_ctrl_c) as pool:
            for done, failed, kinds in pool.imap_unordered(self.counts_of, calls):
                self.done, self.failed = self.done + done, self.failed + failed
                self.kinds.update(kinds)

    def counts_of(self, call):
        own = type(self)(self.name)
        own.each([call])
        return own.done, own.failed, own.kinds

    def each(self, calls):
        """Makes these calls one after another. A fault in one is a failed check: it would end the others before they
        have said what failed."""
        for call in calls:
            try:
                call(self)
            except Exception as error:
                traceback.print_exc()
                self.expect(False, f"checks ended by {error!r}")

    def outputs(self, child, what, seconds):
        """What a process writes until it ends. One that goes on for longer is a failed check, and is killed."""
        try:
            return child.communicate(timeout=seconds)
        except subprocess.TimeoutExpired:
            child.kill()
            self.expect(False, f"{what}: it goes on after {seconds} s")
            return child.communicate()

    def count(self, done, failed, message):
        """Counts what was checked elsewhere, of the kind that begins the message, which it prints if some failed."""
        self.done, self.failed = self.done + done, self.failed + int(failed)
        self.kinds[message.partition(":")[0]] += done
        if failed:
            print(f"FAILED: {message}")
            places.note_failure()

    def end(self):
        """Ends the script: its last line counts, and its status is 1 where something failed or nothing was checked."""
        if not self.done:
            self.expect(False, "nothing was checked")
        for why in places.too_few(self.kinds):
            self.count(1, 1, why)
        print(f"{self.name}: {self.done - self.failed} passed, {self.failed} failed")
        sys.exit(1 if self.failed else 0)
