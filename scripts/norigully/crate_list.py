"""What crates.txt says: its lines, lowest first, and the crates that one depends on. And the files of a crate.

The scripts read crates.txt here alone, and without a kit, since a built program runs where there is none.
"""

import os
import shutil

from norigully import TOP

# The parts of a crate that its proof reads.
PARTS = ("src", "specs", "proofs")
# What is in a crate's folder and is no part of what is built from it.
NOT_BUILT_FROM = ("out", "must-fail", "mistakes")


def lines_of(top=TOP):
    """The lines of crates.txt by their crate, lowest first, without comments."""
    lines = (line.partition("#")[0].strip() for line in (top / "crates.txt").read_text(encoding="utf-8").splitlines())
    return {line.partition(":")[0].split()[0]: line for line in lines if line}


def named_in(line):
    """The libraries that a line names, of this repository or of the kit."""
    return line.partition(":")[2].split()


def with_those_below(names, top=TOP):
    """These crates and all crates of the repository that they depend on, lowest first."""
    lines, found = lines_of(top), set()

    def take(name):
        if name in lines and name not in found:
            found.add(name)
            for below in named_in(lines[name]):
                take(below)

    for name in names:
        take(name)
    return [name for name in lines if name in found]


def sources_of(crate, top=TOP):
    """The folder of a crate, and the paths in it of the files that its proof reads, in order."""
    folder = str(top / "crates" / crate)
    found = (it for part in PARTS if os.path.isdir(f"{folder}/{part}") for it in files_below(f"{folder}/{part}"))
    return folder, sorted(it.path[len(folder) + 1 :] for it in found)


def files_below(folder):
    """The files in a folder and in those in it. Each ./run looks at two thousand, for which path objects or os.walk
    take several times as long."""
    with os.scandir(folder) as found:
        for it in found:
            if it.is_dir(follow_symlinks=False):
                yield from files_below(it.path)
            else:
                yield it


def copy_crate(name, target, top=TOP):
    """Copies what a crate is built from into another repository."""
    ignored = shutil.ignore_patterns(*NOT_BUILT_FROM)
    shutil.copytree(top / "crates" / name, target / "crates" / name, ignore=ignored, dirs_exist_ok=True)
