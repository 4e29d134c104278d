"""What the gate takes: what it took where that was measured, and by it what it takes on the machine that runs it."""

import itertools

# The processor minutes of each kind of work from nothing, on a machine where FIRST takes FIRST_SECONDS of a processor.
# No other one was faster, and the slowest took SLOWEST times as long. They are those of df144e63 where FIRST took 139
# seconds, scaled by that; that of all mistakes is of an earlier tree.
FROM_NOTHING = {"proofs": 52, "tests": 17, "edits": 16, "mistakes": 49, "scripts": 9}
FIRST, FIRST_SECONDS = "run_names", 65
SLOWEST = 2.5
# This part of the work is a chain of crates, each over the one before: on many processors it still takes that long.
CHAIN = 0.32
# A job of CI ends after these minutes. The kinds are done in this order, by and large.
JOB, ORDER = 180, ("proofs", "edits", "tests", "scripts", "mistakes")


def by_the_clock(minutes, jobs):
    """The minutes by the clock of these processor minutes, where so many checks run side by side."""
    return minutes * max(1 / jobs, CHAIN)


def span(minutes):
    """From the fastest machine where it was measured to the slowest."""
    return f"{minutes:.0f} to {minutes * SLOWEST:.0f}"


def text(minutes, jobs):
    """What these processor minutes are by the clock, and with two processors, too."""
    two = f", and {span(by_the_clock(minutes, 2))} with two" if jobs != 2 else ""
    return f"{span(minutes)} processor minutes, {span(by_the_clock(minutes, jobs))} by the clock{two}"


def not_reached(kinds, jobs):
    """The kinds that a job leaves out on the slowest machine, of these processor minutes by kind."""
    sums = itertools.accumulate(kinds[it] * SLOWEST for it in ORDER)
    return [kind for kind, so_far in zip(ORDER, sums) if kinds[kind] and by_the_clock(so_far, jobs) > JOB]


def job_text(kinds, jobs):
    """Whether a job has the time for these processor minutes by kind, also with two processors."""
    left = {count: not_reached(kinds, count) for count in (jobs, 2)}
    said = [f"with {count} at a time it leaves out: {', '.join(it)}" for count, it in left.items() if it]
    how = f"may be too short on the slowest machine: {'; '.join(said)}" if said else "leaves out nothing, also with two"
    return f"a job of {JOB} minutes {how}"


def here_text(minutes, jobs, seconds):
    """What these processor minutes are on a machine where FIRST took so many seconds of a processor."""
    here = minutes * seconds / FIRST_SECONDS
    took = f"{FIRST} took {seconds:.0f} processor seconds, and {FIRST_SECONDS} on the fastest machine"
    return f"{took}: all takes some {here:.0f} processor minutes here, {by_the_clock(here, jobs):.0f} by the clock"
