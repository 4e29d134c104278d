"""The program that ./run and scripts/page start: the proved one of these sources, or else one without a proof, which is
built once (unproved_program.py)."""

import contextlib
import os
import resource

from norigully import kit, unproved_program
from norigully.entry import FAILED, NOT_BUILT
from norigully.front import fault
from norigully.programs import is_of, program, sum_of_sources, take

# The bytes of addresses that a program without its proof needs.
SPACE = 20 << 40


def check_space(called, name):
    """Ends this where a program without its proof could not begin: it checks each access to memory, and for that it has
    the addresses of 20 TB."""
    most, _ = resource.getrlimit(resource.RLIMIT_AS)
    if most != resource.RLIM_INFINITY and most < SPACE:
        why = f"the limit of memory is {most >> 10} KB (ulimit -v), under which {name} without its proof cannot begin"
        fault(called, f"{why}; ./build makes one that can", FAILED)


def check_mount(called, variable, folder):
    """Ends this where no program can run from this folder, and says what helps. One that is not there yet will be in
    one above."""
    while folder and not os.path.exists(folder):
        folder = os.path.dirname(folder)
    with contextlib.suppress(OSError):
        if folder and os.statvfs(folder).f_flag & os.ST_NOEXEC:
            why = f"no program can run in {folder}, which is mounted noexec: let {variable} name another folder"
            fault(called, why, NOT_BUILT)


def find(called, name):
    """The path of the program. It ends this where there is none and none can be built."""
    sources = sum_of_sources(name)
    if is_of(name, sources) or take(name, sources):
        return program(name)
    check_space(called, name)
    if found := unproved_program.find(name, sources):
        check_mount(called, "XDG_CACHE_HOME", unproved_program.programs().at)
    return found or build(called, name)


def build(called, name):
    """Has the kit build the program without its proof, where one can run."""
    # Most calls build nothing, and need not wait for this.
    import tempfile

    from norigully import unproved_build

    kit.require(called)
    check_mount(called, "TMPDIR", tempfile.gettempdir())
    check_mount(called, "XDG_CACHE_HOME", unproved_program.programs().at)
    return unproved_build.build_for(called, name)
