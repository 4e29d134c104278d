"""Recorded runs (docs/RECORDED_RUNS.md): what tests wrote is kept beside the lines of a run, so that who shows the run
again need not read what is not shown. `Recorder` writes the folder of a run line by line, `RecordedRun` reads one.
"""

import errno
import io
import os
import re
import struct
import sys
from dataclasses import dataclass

from norigully.entry import Bad, NotWritten, pieces_of, write
from norigully.scene_lines import stream, unescaped
from norigully.words import FILES_OF_RUN

LINES, OUTPUTS = FILES_OF_RUN
# In each line that has an output the field of its first stream, counted from 1.
FIRST_STREAM = {b"done": 14, b"retry": 13, b"setupdone": 10, b"answer-test": 12, b"answer-script": 11}
FIELDS_OF_AN_ATTEMPT = 8
# How many streams an output of each form has; the other forms have none.
STREAMS = {b"split": 2, b"comb": 1}
MARK = b"\\@"
# The variable that makes Python's hash of bytes the same in each run, and what keeps its value where a script sets it.
SEED, OWN_SEED = "PYTHONHASHSEED", "NORIGULLY_PYTHONHASHSEED"
# A number may begin with zeros, and no file is so large that its numbers have more digits.
REFERENCE = re.compile(rb"\\@0*([0-9]{1,20}):0*([0-9]{1,20}):([0-9a-f]{16})")


@dataclass(frozen=True)
class Reference:
    """The place of its field in the line, counted from 0, and of its bytes in `outputs`."""

    place: int
    offset: int
    length: int
    sum: bytes


def quick_sums():
    """Starts this script anew where that makes Python's own hash of bytes the sum, which is a thousand times as quick:
    from Python 3.11 on it is, if PYTHONHASHSEED is 0. What the script starts has that variable as it was."""
    if OWN_SEED in os.environ:
        seed = os.environ.pop(OWN_SEED)
        os.environ.pop(SEED) if not seed else os.environ.update({SEED: seed})
    elif sys.hash_info.algorithm == "siphash13" and sys.flags.hash_randomization:
        os.execve(sys.executable, sys.orig_argv, {**os.environ, OWN_SEED: os.environ.get(SEED, ""), SEED: "0"})


def sum_of(data):
    """The SipHash-1-3 with the key 0, which finds what was damaged, and guards against nobody."""
    if data and sys.hash_info.algorithm == "siphash13" and not sys.flags.hash_randomization:
        # Python has -2 where the hash would be -1.
        if (own := hash(data)) != -2:
            return b"%016x" % (own % 2**64)
    return b"%016x" % sip_hash(data)


def sip_hash(data):
    """The same, word by word."""
    state = 0x736F6D6570736575, 0x646F72616E646F6D, 0x6C7967656E657261, 0x7465646279746573
    padded = data + bytes(-(len(data) + 1) % 8) + bytes([len(data) % 256])
    for (word,) in struct.iter_unpack("<Q", padded):
        v0, v1, v2, v3 = sip_round(*state[:3], state[3] ^ word)
        state = v0 ^ word, v1, v2, v3
    v0, v1, v2, v3 = state
    state = v0, v1, v2 ^ 0xFF, v3
    for _ in range(3):
        state = sip_round(*state)
    return state[0] ^ state[1] ^ state[2] ^ state[3]


def sip_round(v0, v1, v2, v3):
    v0, v2 = (v0 + v1) % 2**64, (v2 + v3) % 2**64
    v1, v3 = turned(v1, 13) ^ v0, turned(v3, 16) ^ v2
    v2, v0 = (v2 + v1) % 2**64, (turned(v0, 32) + v3) % 2**64
    return v0, turned(v1, 17) ^ v2, turned(v2, 32), turned(v3, 21) ^ v0


def turned(word, bits):
    return (word << bits | word >> 64 - bits) % 2**64


def fields_of(line):
    """The fields of a line, which has no line feed; none of one that is passed over."""
    return [] if not line or line.startswith(b"#") else line.split(b"\t")


def streams_of(fields):
    """For each output of a line that says something the places of its streams, counted from 0."""
    if fields[0] not in FIRST_STREAM:
        return []
    step = FIELDS_OF_AN_ATTEMPT if fields[0] == b"done" else len(fields)
    firsts = range(FIRST_STREAM[fields[0]] - 1, len(fields) - 1, step)
    return [range(first, first + STREAMS.get(fields[first - 1], 0)) for first in firsts]


def is_absent(field, places):
    """Whether a stream was not captured. Both streams in one always were: their `-` is a text."""
    return field == b"-" and len(places) == 2


def bad_field(number, place):
    return Bad(f"line {number}: bad field {place + 1}")


def marked(fields):
    """The places of what begins as a reference does."""
    return [place for place, field in enumerate(fields) if place and field.startswith(MARK)]


def references_of(number, line):
    """The references of the line of this number, one after another up to the first that is wrong."""
    fields = fields_of(line)
    if not marked(fields):
        return
    may_be_one = set()
    for places in streams_of(fields):
        if all(fields[it] in (b"", b"-") or fields[it].startswith(MARK) for it in places):
            may_be_one.update(places)
    for place in marked(fields):
        found = REFERENCE.fullmatch(fields[place])
        if not found or place not in may_be_one:
            raise bad_field(number, place)
        yield Reference(place, int(found[1]), int(found[2]), found[3])


def comment(length):
    """So many bytes that are one line which is passed over: `#`, spaces and a line feed."""
    return b"#".ljust(length - 1)[: length - 1] + b"\n" if length else b""


def check_place(folder):
    """Whether a run can be recorded in this folder, as far as that can be known before one is."""
    there = [name for name in (LINES, OUTPUTS) if os.path.lexists(os.path.join(folder, name))]
    if there:
        raise Bad(f"{folder} has {' and '.join(there)} already")
    while folder and not os.path.lexists(folder):
        folder = os.path.dirname(folder)
    code = 0 if os.path.isdir(folder or ".") else errno.EEXIST
    if code or not os.access(folder or ".", os.W_OK | os.X_OK):
        raise Bad(f"cannot write {folder}: {os.strerror(code or errno.EACCES)}")


class Recorder:
    """Writes a recorded run. Whenever it is ended, each whole line that it wrote names bytes that are there."""

    def __init__(self, folder, headers=None):
        """Makes the files, and the folder where there is none. How the run ends is not known yet: `headers` has a line
        for each way."""
        check_place(folder)
        try:
            os.makedirs(folder, exist_ok=True)
            self.outputs = open(os.path.join(folder, OUTPUTS), "xb+", buffering=0)
            self.lines = open(os.path.join(folder, LINES), "xb", buffering=0)
        except OSError as error:
            raise Bad(f"cannot write {folder}: {error.strerror}") from error
        self.headers, self.room_at = headers or {}, None
        self.number, self.size = 0, 0
        # By test: where the output of its earlier attempts is.
        self.retried = {}

    def write(self, line):
        """Writes a line of a scene. One that is wrong stays wrong in the same field; a reference is wrong in a
        scene."""
        line = line.removesuffix(b"\n")
        self.number += 1
        fields = fields_of(line)
        if marked(fields):
            raise bad_field(self.number, marked(fields)[0])
        if fields and fields[0] != b"config":
            self.leave_room()
            line = b"\t".join(self.referring(fields))
        write(line + b"\n", self.lines.fileno())

    def leave_room(self):
        """Leaves room for the header once, in front of the first event."""
        if self.room_at is None:
            self.room_at = self.lines.tell()
            write(comment(self.room()), self.lines.fileno())

    def room(self):
        return max(map(len, self.headers.values()), default=0)

    def referring(self, fields):
        """The fields of a line, with references in place of what its streams hold, which is written before."""
        test, fields = tuple(fields[1:4]), fields.copy()
        known = self.retried.get(test, {}) if fields[0] in (b"retry", b"done") else {}
        for places in streams_of(fields):
            held = [held_in(fields[it]) for it in places]
            for place, data in zip(places, held):
                if data and None not in held and not is_absent(fields[place], places):
                    fields[place] = self.reference(data, known)
        if fields[0] == b"retry":
            self.retried[test] = known
        elif fields[0] == b"done":
            self.retried.pop(test, None)
        return fields

    def reference(self, data, known):
        """A reference to these bytes, which are there already where the same line or an earlier attempt of its test
        has them."""
        key = len(data), sum_of(data)
        offset = known.get(key)
        if offset is None or os.pread(self.outputs.fileno(), len(data), offset) != data:
            offset = known[key] = self.size
            write(data, self.outputs.fileno())
            self.size += len(data)
        return b"\\@%d:%d:%b" % (offset, *key)

    def end(self, ended=None):
        """Writes how the run ended, where there is a header for that. It fails where the files are gone."""
        if ended is not None:
            self.write_header(ended)
        if not all(os.fstat(it.fileno()).st_nlink for it in (self.lines, self.outputs)):
            raise NotWritten(errno.ENOENT, "its files were removed")

    def write_header(self, ended):
        """Puts the header of a run that ended so into its room, if an event came."""
        if self.room_at is not None:
            header = self.headers[ended]
            os.pwrite(self.lines.fileno(), header + comment(self.room() - len(header)), self.room_at)


def record(scene, folder):
    """Records the lines of a scene."""
    recorder = Recorder(folder)
    for line in io.BytesIO(scene):
        recorder.write(line)


def held_in(field):
    """The bytes of a stream by its field, or None where that is wrong in a scene."""
    try:
        field.decode()
    except UnicodeDecodeError:
        return None
    return unescaped(field)


class RecordedRun:
    """A recorded run that is read: its whole lines, without their line feeds, and what follows the last."""

    def __init__(self, folder):
        missing = [name for name in (LINES, OUTPUTS) if not os.path.isfile(os.path.join(folder, name))]
        if missing:
            raise Bad(f"{folder} has no {' and no '.join(missing)}")
        *self.lines, self.rest = b"".join(pieces_of(os.path.join(folder, LINES))).split(b"\n")
        self.outputs = open(os.path.join(folder, OUTPUTS), "rb")

    def size(self):
        """How many bytes `outputs` has by now: the run may still be recorded."""
        return os.fstat(self.outputs.fileno()).st_size

    def references(self, number):
        """The references of the line of this number, each with its bytes."""
        for it in references_of(number, self.lines[number - 1]):
            data = self.read(it.offset, it.length)
            if data is None or sum_of(data) != it.sum:
                raise bad_field(number, it.place)
            yield it, data

    def read(self, offset, length):
        """So many bytes of the outputs, or None where they go beyond the end. No length takes more memory than that."""
        if offset + length > self.size():
            return None
        self.outputs.seek(offset)
        return self.outputs.read(length)

    def scene(self):
        """The lines of the scene: those of the run, with each output in its place."""
        for number, line in enumerate(self.lines, 1):
            fields = line.split(b"\t")
            for it, data in self.references(number):
                fields[it.place] = stream(data).encode()
            yield b"\t".join(fields) + b"\n"
