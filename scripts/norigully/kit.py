"""The kit that proves this repository: whether it is here, whether it is of the right logic, and how many checks it may
run side by side."""

import functools
import os
import pathlib
import shutil
import sys

# Proofs hold for every kit of this logic, whatever its own name is (`rt version` prints both).
LOGIC = "dac8208d650f15bf"
# What a check mostly takes is less, and for a moment it is as much, in megabytes.
MEGABYTES_A_CHECK = 3500


@functools.cache
def folder():
    """Where the kit is. It ends the program where there is none."""
    return pathlib.Path(shutil.which("rt") or sys.exit("there is no rt on the PATH")).resolve().parent.parent


def identity():
    """What tells this kit from all others."""
    return (folder() / "KIT-ID").read_text()


def version():
    """What `rt version` prints, as `rattle-kit-13f logic dac8208d650f15bf`; None where there is no `rt`."""
    import subprocess

    if not shutil.which("rt"):
        return None
    ran = subprocess.run(["rt", "version"], stdin=subprocess.DEVNULL, capture_output=True, text=True, errors="replace")
    return " ".join(ran.stdout.split())


def mismatch():
    """Why nothing can be proved or built here, in one line; None where the kit is of the right logic."""
    found = version()
    if found is None:
        return f"there is no rt on the PATH, and this needs a Rattle kit of logic {LOGIC}"
    if f"logic {LOGIC}" not in found:
        return f"the kit here is `{found}`, and this needs one of logic {LOGIC}"
    return None


def require(program):
    """Ends the program with status 1 where the kit does not fit."""
    why = mismatch()
    if why:
        sys.exit(f"{program}: {why}")


def megabytes():
    """The memory that is free."""
    with open("/proc/meminfo") as memory:
        return next(int(line.split()[1]) for line in memory if line.startswith("MemAvailable:")) // 1024


def has_memory_for(checks):
    """Whether this many checks may run side by side."""
    return megabytes() >= checks * MEGABYTES_A_CHECK


def jobs():
    """How many checks run side by side: RT_JOBS where it is set, else as many as processors and memory allow."""
    if os.environ.get("RT_JOBS", "").isdecimal():
        return max(1, int(os.environ["RT_JOBS"]))
    return max(1, min(len(os.sched_getaffinity(0)), megabytes() // MEGABYTES_A_CHECK))
