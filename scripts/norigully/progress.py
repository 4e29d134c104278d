"""How far a long run is, in lines that ./build and ./test print: the minutes so far, how many parts are done of how
many, and how long each took."""

import re
import threading
import time

# What `rt ci` says of a crate in the end.
DONE = re.compile(r"^rt: (\w+) (proved|NOT PROVED|is kept)")
# How often a crate is looked for that has begun, in seconds.
TICK = 0.5
# What ./test writes behind the names of the crates that scripts/prove proved.
END = "end"


class Progress:
    """So many parts, of which none is done yet."""

    def __init__(self, count):
        self.count, self.done, self.began, self.telling = count, 0, time.monotonic(), threading.Lock()

    def begin(self, part):
        """Says that a part begins."""
        with self.telling:
            print(f"{self.minutes()}  begins: {part}", flush=True)

    def tell(self, part, how):
        """Says that a part is done, and how it ended."""
        with self.telling:
            self.done += 1
            print(f"{self.minutes()}  {self.done:2d} of {self.count}  {part}: {how}", flush=True)

    def minutes(self):
        return f"{(time.monotonic() - self.began) / 60:5.1f} min"


class Crates(Progress):
    """The crates of a repository that `rt ci` proves there, while this is entered."""

    def __init__(self, top, crates):
        super().__init__(len(crates))
        self.outs = {name: top / "crates" / name / "out" for name in crates}
        self.before = {name: number_of(out) for name, out in self.outs.items()}
        self.begun, self.kept, self.ended = {}, 0, threading.Event()
        self.watcher = threading.Thread(target=self.watch)

    def __enter__(self):
        self.watcher.start()
        return self

    def __exit__(self, *_):
        self.ended.set()
        self.watcher.join()

    def watch(self):
        """Notes when each crate begins: its check makes its folder first."""
        while not self.ended.wait(TICK):
            for name, out in self.outs.items():
                if name not in self.begun and number_of(out) not in (None, self.before[name]):
                    self.begun[name] = time.monotonic()

    def read(self, line):
        """Prints what a line of the kit reports of a crate, and returns its name and whether it is proved; None
        where the line says something else."""
        found = DONE.match(line)
        if not found or found[1] not in self.outs:
            return None
        now, is_kept = time.monotonic(), found[2] == "is kept"
        seconds = now - self.begun.get(found[1], now)
        self.kept += is_kept
        self.tell(found[1], "as before" if is_kept else f"{found[2]}, {seconds:.0f} s")
        return found[1], found[2] != "NOT PROVED"


def number_of(folder):
    """The number by which the file system knows a folder, or None where it is not there."""
    try:
        return folder.stat().st_ino
    except OSError:
        return None
