"""What a page takes from a scene's lines: when output is shown, the facts of the run, and the tests that it lists."""

import hashlib
from dataclasses import dataclass, field

from norigully.page_table import pieces_of
from norigully.scene_lines import unescaped

FIELDS_BEFORE, FIELDS_OF_AN_ATTEMPT = 9, 8
PASSED = (b"pass", b"leak", b"tmpass")
# How many of the slowest tests a page lists.
SLOWEST = 10
BATCH = 1 << 20
# The field of a line in front of which it is cut, by its first bytes: the words for when output is shown come before.
CUTS = {b"done\t": 6, b"retry": 8}


def shown(lines, success, failure):
    """The lines of a scene, some at a time, with other words for when output is shown; an empty word leaves those of
    the scene."""
    success, failure = success.encode(), failure.encode()
    while batch := lines.readlines(BATCH):
        parts = [part for line in batch for part in with_words(line, success, failure)]
        is_long = len(batch[-1]) > BATCH
        del batch
        # A long line is not copied once more.
        yield from parts if is_long else [b"".join(parts)]


def with_words(line, success, failure):
    """The parts of a line, with these words."""
    count = CUTS.get(line[:5])
    fields = line.split(b"\t", count) if count else ()
    if count == 6 and len(fields) > 6:
        fields[4:6] = success or fields[4], failure or fields[5]
    elif count == 8 and len(fields) > 8 and fields[0] == b"retry":
        fields[7] = failure or fields[7]
    else:
        return (line,)
    return b"\t".join([*fields[:count], b""]), fields[count]


def marked(lines, numbers, mark):
    """The lines of a scene, with a mark in front of those with these numbers, and one behind: a line of which each
    level of the report has one line."""
    line_of_mark = b"setup\t-\t0\t1\t%s\t\t-\n" % mark
    for number, line in enumerate(lines):
        if number not in numbers:
            yield line
        else:
            yield from (line_of_mark, line, b"" if line.endswith(b"\n") else b"\n", line_of_mark)


def places_of(report, mark):
    """How many lines of a report are in front of each mark, and a sum of the report without the marks."""
    places, count, found = [], 0, hashlib.sha256()
    report.seek(0)
    for piece in pieces_of(report):
        at, whole = 0, memoryview(piece)
        while (inside := piece.find(mark, at)) >= 0:
            begin = piece.rfind(b"\n", at, inside) + 1 or at
            count += piece.count(b"\n", at, begin)
            places.append(count)
            found.update(whole[at:begin])
            at = piece.index(b"\n", inside) + 1
        count += piece.count(b"\n", at)
        found.update(whole[at:])
    return places, found.digest()


def plain(spelled):
    """The text that a field spells."""
    return (unescaped(spelled) or spelled).decode(errors="replace")


def number_of(digits):
    """A number, which may have zeros in front."""
    return int(digits.lstrip(b"0")[:40] or 0)


def started(spelled):
    """A date and a time, of which the scene has the numbers."""
    year, *rest = map(number_of, spelled.split(b","))
    month, day, hour, minute, second = (f"{it:02}" for it in rest)
    return f"{year:04}-{month}-{day} {hour}:{minute}:{second}"


def spoken(nanos):
    """A duration, as people say it."""
    seconds = nanos // 10**9
    if seconds < 1:
        return f"{nanos // 10**6} ms"
    if seconds < 60:
        return f"{seconds}.{nanos // 10**8 % 10} s"
    minutes, seconds = divmod(seconds, 60)
    return f"{minutes} min {seconds} s" if minutes < 60 else f"{minutes // 60} h {minutes % 60} min"


@dataclass
class Test:
    """A test that a page lists: the number of its line in the scene, its binary and name, and where it is in the first
    report: its line, and the one behind what it wrote."""

    line: int
    name: tuple
    place: int = -1
    end: int = -1


@dataclass
class Summary:
    """What the lines of a scene say about the run."""

    # In the order in which a page says them.
    facts: dict = field(default_factory=dict)
    # Tests by their names; of the slowest the time before the test.
    failed: dict = field(default_factory=dict)
    flaky: dict = field(default_factory=dict)
    slowest: dict = field(default_factory=dict)
    least: int = 0

    def read(self, number, line):
        """Reads the line of this number."""
        kind = line[:10].split(b"\t", 1)[0]
        if kind == b"done":
            self.read_test(number, line)
        elif kind in (b"run", b"header", b"end", b"endstress"):
            fields = line.removesuffix(b"\n").split(b"\t", 5)
            if kind == b"run":
                self.facts |= {"Profile": plain(fields[2]), "Run": plain(fields[1]), **self.facts}
            elif kind == b"header":
                self.facts["Started"] = started(fields[4])
            else:
                self.facts["Took"] = spoken(number_of(fields[1]))

    def read_test(self, number, line):
        # What tests wrote is not copied.
        at = len(line)
        for _ in range(FIELDS_OF_AN_ATTEMPT):
            at = line.rindex(b"\t", 0, at)
        before, (result, nanos) = line[:at].split(b"\t"), line[at + 1 : at + 99].split(b"\t", 2)[:2]
        was_retried, has_passed, nanos = len(before) > FIELDS_BEFORE, result in PASSED, number_of(nanos)
        if has_passed and not was_retried and nanos <= self.least:
            return
        test = Test(number, tuple(map(plain, before[2:4])))
        if not has_passed or (was_retried and before[6] == b"fail"):
            self.failed.setdefault(test.name, test)
        if has_passed and was_retried:
            self.flaky.setdefault(test.name, test)
        if nanos > self.least and nanos > self.slowest.get(test.name, (0,))[0]:
            self.slowest[test.name] = nanos, test
            if len(self.slowest) > SLOWEST:
                del self.slowest[min(self.slowest, key=lambda it: self.slowest[it][0])]
                self.least = min(it[0] for it in self.slowest.values())

    def tests(self):
        """All tests that are listed, and for each list the numbers of its tests."""
        slowest = sorted(self.slowest.values(), key=lambda it: -it[0])
        lists = {"failed": self.failed, "flaky": self.flaky, "slowest": {test.name: test for _, test in slowest}}
        tests = {**lists["slowest"], **self.flaky, **self.failed}
        numbers = {name: number for number, name in enumerate(tests)}
        return list(tests.values()), {title: [numbers[it] for it in found] for title, found in lists.items()}
