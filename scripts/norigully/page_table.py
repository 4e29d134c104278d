"""The lines of many reports of one run, each kept once, in files: a page has all reports, and making it takes little
memory."""

import array
import bisect
import hashlib
import io
import os

# Reports are compared in pieces: a few bytes, of which most lines differ in some, and then more and more of them.
HEAD, LEAST, MOST, PIECE = 16, 1 << 8, 1 << 16, 1 << 18
# How many bytes after the last line are looked through, and how many lines of one text are noted.
NEAR, SAME = 1 << 12, 8
# How many lines can be noted at first.
ROOM = 1 << 12
STYLE = b"\x1b"


class Table:
    """The lines of all reports. Each report is stretches of them, and most leave out lines of the first one, in its
    order. Stretches are compared as bytes. What is in memory is a sum and a place for each line of which a stretch
    is likely to begin: one that begins with a style, as those of the report itself do, and the line behind it."""

    def __init__(self, file):
        """The lines go into this file, which is empty."""
        self.writer, self.reader = open(file, "wb"), open(file, "rb")
        self.count, self.end, self.is_behind_style = 0, 0, False
        # Of the lines that may be looked up: their sums, where they begin, and how many lines are before them; and by
        # their sums which ones these are, counted from 1. There is always room in it.
        self.sums, self.starts, self.numbers = array.array("q"), array.array("Q"), array.array("I")
        self.slots = array.array("I", bytes(4 * ROOM))
        # Some of the bytes.
        self.held_at, self.held = 0, b""

    def close(self):
        self.writer.close()
        self.reader.close()

    def stretches_of(self, report):
        """The stretches of a report, a file of whole lines: how far behind the last one each begins, and how many lines
        it has."""
        if not self.count:
            return self.first(report)
        found, at, place = array.array("q", [0, 0]), 0, 0
        for piece in pieces_of(report):
            begin = 0
            while begin < len(piece):
                end = self.same(piece, begin, place)
                if end == begin:
                    end = piece.index(b"\n", begin) + 1
                    number, place = self.place_of(piece, begin, end, at, place)
                    if number != at:
                        found.extend((number - at, 0))
                        at = number
                count = piece.count(b"\n", begin, end)
                found[-1] += count
                at, place, begin = at + count, place + end - begin, end
        return found

    def first(self, report):
        """The stretch of the first report, whose lines are all new."""
        for piece in pieces_of(report):
            for line in io.BytesIO(piece):
                self.append(line)
        self.writer.flush()
        return array.array("q", [0, self.count])

    def append(self, line):
        """Writes a new line."""
        is_styled = line.startswith(STYLE)
        if is_styled or self.is_behind_style:
            self.note(hash(line))
        self.writer.write(line)
        self.is_behind_style = is_styled
        self.count += 1
        self.end += len(line)

    def note(self, key):
        """Notes where the line of this sum goes, unless many are the same."""
        same, slot = self.of_sum(key)
        if len(same) == SAME:
            return
        self.sums.append(key)
        self.starts.append(self.end)
        self.numbers.append(self.count)
        self.slots[slot] = len(self.sums)
        if 3 * len(self.sums) > 2 * len(self.slots):
            self.slots = array.array("I", bytes(2 * len(self.slots) * self.slots.itemsize))
            for number, key in enumerate(self.sums, 1):
                self.slots[self.of_sum(key)[1]] = number

    def of_sum(self, key):
        """The lines that are noted of this sum, in their order, and the slot behind them."""
        sums, slots, last, found = self.sums, self.slots, len(self.slots) - 1, []
        slot = key & last
        while number := slots[slot]:
            if sums[number - 1] == key:
                found.append(number - 1)
            slot = (slot + 1) & last
        return found, slot

    def same(self, piece, begin, place):
        """The end of the whole lines from here on that are those at this place of the table."""
        head = piece[begin : begin + HEAD]
        if head != self.read(HEAD, place) and b"\n" not in head:
            return begin
        end, size = begin, LEAST
        while (here := piece[end : end + size]) and (there := self.read(size, place)):
            if here != there:
                length = min(len(here), len(there))
                differs = int.from_bytes(here[:length], "little") ^ int.from_bytes(there[:length], "little")
                end += ((differs & -differs).bit_length() - 1) // 8 if differs else length
                break
            end, place, size = end + size, place + size, min(4 * size, MOST)
        return max(begin, piece.rfind(b"\n", begin, end) + 1)

    def read(self, size, place):
        """That many bytes of the table, or those that are there. Much of it is read one after another."""
        at = place - self.held_at
        if at < 0 or at + size > len(self.held):
            self.held_at, self.held, at = place, os.pread(self.reader.fileno(), max(size, MOST), place), 0
        return self.held[at : at + size]

    def place_of(self, piece, begin, end, at, place):
        """Where a line is from here on, or else first, or else where it goes as a new one: how many lines and how many
        bytes are before it."""
        line, near = piece[begin:end], self.read(NEAR, place)
        if inside := near.find(b"\n" + line) + 1:
            return at + near.count(b"\n", 0, inside), place + inside
        behind = bisect.bisect_left(self.numbers, at)
        for it in sorted(self.of_sum(hash(line))[0], key=lambda it: it < behind):
            if self.read(len(line), self.starts[it]) == line:
                return self.numbers[it], self.starts[it]
        self.is_behind_style = begin > 0 and piece.startswith(STYLE, piece.rfind(b"\n", 0, begin - 1) + 1)
        found = self.count, self.end
        self.append(line)
        self.writer.flush()
        return found


def pieces_of(report):
    """Pieces of whole lines."""
    while piece := report.read(PIECE):
        yield piece + report.readline()


def sum_of(report):
    """A sum of all of a file."""
    found = hashlib.sha256()
    report.seek(0)
    while piece := report.read(PIECE):
        found.update(piece)
    return found.digest()


class Reports:
    """The stretches of each report, one line of a file for each that differs from the others."""

    def __init__(self, file):
        self.path, self.writer, self.known = file, open(file, "wb"), {}

    def close(self):
        self.writer.close()

    def number_of(self, report, table):
        """The number of the line with the stretches of this report, a file."""
        key = sum_of(report)
        if key not in self.known:
            self.known[key] = len(self.known)
            report.seek(0)
            self.writer.write(",".join(map(str, table.stretches_of(report))).encode() + b"\n")
        return self.known[key]
