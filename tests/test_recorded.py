"""Recorded runs: which fields become references, to which bytes, and what is wrong with those of a folder."""

import io
import os
import re
import resource
import subprocess
import sys
import tempfile
import unittest
import warnings
from pathlib import Path
from unittest import mock

from gate.recorded_rows import FIRST, KINDS, OUTPUT, REFUSED, SUM, TAKEN, reference, small_scene
from norigully import TOP, recorded
from norigully.entry import Bad, NotWritten
from norigully.recorded import LINES, OUTPUTS, RecordedRun, Recorder, record, sum_of
from norigully.scene_lines import Attempt, Run, unescaped

# Escapes of a field and their bytes; None is no bytes.
FIELDS = {
    rb"\n\t\r\e\\": b"\n\t\r\x1b\\",
    rb"\x2d\xff\xFF\x00": b"-\xff\xff\x00",
    rb"\\x41\\\x41": rb"\x41\A",
    b"": b"",
    rb"\q": None,
    rb"\x4": None,
    rb"\x\\41": None,
    b"a\\": None,
    rb"\@0:0": None,
}
# Outputs as a scene has them, and for each stream what it holds; None where its field stays as it is.
OUTPUTS_OF_SCENES = {
    b"split\tone\\n\ttwo\t-\t-": (b"one\n", b"two"),
    b"split\tone\t-\t-\tout:0:on": (b"one", None),
    b"split\t\ttwo\ta\\,b\t-": (None, b"two"),
    b"split\t-\t\\x2d\t-\t-": (None, b"-"),
    b"split\t-\t\t-\t-": (None, None),
    b"comb\t-\t-\t-\t-": (b"-", None),
    b"comb\t\\xff\\e[m\xc3\xa9\t-\t-\t-": (b"\xff\x1b[m\xc3\xa9", None),
    b"comb\t\t-\t-\t-": (None, None),
    b"unloaded\t-\t-\t-\t-": (None, None),
    b"start\tone\\,two\t-\t-\t-": (None, None),
    # What is wrong stays wrong.
    b"split\tone\t\\q\t-\t-": (None, None),
    b"split\tone\t\xff\t-\t-": (None, None),
    b"splat\tone\ttwo\t-\t-": (None, None),
    b"split\tone\t-": (b"one", None),
}


def scene_in(folder):
    """The lines of the scene that a folder holds, up to the first fault, and that."""
    lines = []
    try:
        for line in RecordedRun(folder).scene():
            lines.append(line)
    except Bad as error:
        return lines, str(error)
    return lines, None


def run_of(*attempts):
    """The lines of a run of tests that passed or failed so."""
    lines = []
    run = Run(lambda line: lines.append(line.encode()), len(attempts), 1)
    for number, it in enumerate(attempts):
        run.done("alpha", f"t{number + 1}", [it])
    run.end(4)
    return lines


def retried(first, second):
    """The lines of a test that wrote so in two attempts."""
    lines, failed = [], Attempt("fail:1", 1, *first)
    run = Run(lambda line: lines.append(line.encode()), 1, 1)
    run.retry("alpha", "t1", failed, 1, 2)
    run.done("alpha", "t1", [failed, Attempt("pass", 1, *second)])
    return lines


def first_beyond(text, is_there):
    """The fault of a recorded run whose outputs have only the bytes that are there, by the offset and the length."""
    for number, line in enumerate(text.split(b"\n"), 1):
        for place, field in enumerate(line.split(b"\t"), 1):
            found = re.match(rb"\\@(\d+):(\d+):", field)
            if found and not is_there(int(found[1]), int(found[2])):
                return f"line {number}: bad field {place}"
    return None


class InFolders(unittest.TestCase):
    def setUp(self):
        made = tempfile.TemporaryDirectory()
        self.addCleanup(made.cleanup)
        self.room, self.count = Path(made.name), 0
        # What is recorded stays open until it is no longer used.
        warnings.simplefilter("ignore", ResourceWarning)

    def place(self):
        self.count += 1
        return self.room / f"run{self.count}"

    def recorded(self, scene):
        folder = self.place()
        record(scene, folder)
        return folder

    def made(self, lines, output=OUTPUT):
        folder = self.place()
        folder.mkdir()
        (folder / LINES).write_bytes(lines)
        (folder / OUTPUTS).write_bytes(output)
        return folder


class Recorded(InFolders):
    def test_escapes(self):
        for field, held in FIELDS.items():
            with self.subTest(field=field):
                self.assertEqual(unescaped(field), held)

    def test_streams_become_references(self):
        before = b"# a comment\n\n"
        for kind, (line, form) in KINDS.items():
            for output, held in OUTPUTS_OF_SCENES.items():
                with self.subTest(kind=kind, output=output):
                    fields, written = (line % output).split(b"\t"), b""
                    for place, data in enumerate(held, form):
                        if data is not None:
                            fields[place] = reference(len(written), len(data), sum_of(data))
                            written += data
                    folder = self.recorded(before + line % output)
                    self.assertEqual((folder / LINES).read_bytes(), before + b"\t".join(fields) + b"\n")
                    self.assertEqual((folder / OUTPUTS).read_bytes(), written)

    def test_references(self):
        for kind, (line, form) in KINDS.items():
            for output, held in TAKEN.items():
                with self.subTest(kind=kind, output=output):
                    found = scene_in(self.made(b"\n%b\n" % (line % output)))
                    self.assertEqual(found, ([b"\n", line % held + b"\n"], None))
            for output, behind in REFUSED.items():
                with self.subTest(kind=kind, output=output):
                    found = scene_in(self.made(b"#\t\\@\n%b\n" % (line % output)))
                    self.assertEqual(found, ([b"#\t\\@\n"], f"line 2: bad field {form + behind}"))

    def test_references_in_lines_without_output(self):
        for line, place in ((b"skip\t-\ta\t%b", 4), (b"run\t%b\tdefault\t1\t1\t-", 2), (b"config\tfinal\t%b", 3)):
            with self.subTest(line=line):
                found = scene_in(self.made(line % FIRST + b"\n"))
                self.assertEqual(found, ([], f"line 1: bad field {place}"))
                with self.assertRaisesRegex(Bad, f"^line 1: bad field {place}$"):
                    self.recorded(line % FIRST)

    def test_damage(self):
        """Both files cut after each byte, and each byte of the outputs changed."""
        scene = small_scene()
        folder = self.recorded(b"".join(scene))
        text, output = (folder / LINES).read_bytes(), (folder / OUTPUTS).read_bytes()
        self.assertEqual(output, b"one\n-\xffno\nxxxxxxxxxat last")
        for length in range(len(text) + 1):
            folder = self.made(text[:length], output)
            self.assertEqual(scene_in(folder), (scene[: text.count(b"\n", 0, length)], None))
            self.assertEqual(RecordedRun(folder).rest, text[:length].rpartition(b"\n")[2])
        for length in range(len(output) + 1):
            _, fault = scene_in(self.made(text, output[:length]))
            self.assertEqual(fault, first_beyond(text, lambda offset, count: offset + count <= length))
        for place in range(len(output)):
            _, fault = scene_in(self.made(text, output[:place] + bytes([output[place] ^ 1]) + output[place + 1 :]))
            self.assertEqual(fault, first_beyond(text, lambda offset, count: not offset <= place < offset + count))

    def test_attempts_of_one_sum(self):
        scene = retried((b"first", None), (b"other", None))
        with mock.patch("norigully.recorded.sum_of", lambda data: SUM):
            folder = self.recorded(b"".join(scene))
            self.assertEqual((folder / OUTPUTS).read_bytes(), b"firstother")
            self.assertEqual(scene_in(folder), (scene, None))

    def test_headers(self):
        """Room for a header behind the lines of `config`, and headers of each length in it."""
        scene = [b"#\n", *small_scene()]
        for longest in range(3, 9):
            headers = {length: b"h" * (length - 1) + b"\n" for length in range(1, longest + 1)}
            for ended in (None, *headers):
                with self.subTest(longest=longest, ended=ended):
                    folder = self.place()
                    recorder = Recorder(folder, headers)
                    for line in scene:
                        recorder.write(line)
                    recorder.end(ended)
                    room = b"#".ljust(longest - 1) + b"\n"
                    if ended:
                        left = longest - ended
                        room = headers[ended] + (b"#".ljust(left - 1) + b"\n" if left > 1 else b"\n" * left)
                    lines, fault = scene_in(folder)
                    self.assertEqual((b"".join(lines), fault), (b"".join([*scene[:2], room, *scene[2:]]), None))

    def test_a_full_disk(self):
        """What is there is the first lines, after however many bytes of either file."""
        scene = run_of(*(Attempt("fail:1", 1, b"x" * 300, it * 80) for it in ("t1", "t2", "t3")))
        _, hard = resource.getrlimit(resource.RLIMIT_FSIZE)
        for limit in range(0, 1500, 3):
            recorder, folder = Recorder(place := self.place()), place
            resource.setrlimit(resource.RLIMIT_FSIZE, (limit, hard))
            try:
                for line in scene:
                    recorder.write(line)
                is_full = False
            except NotWritten:
                is_full = True
            finally:
                resource.setrlimit(resource.RLIMIT_FSIZE, (hard, hard))
            lines, fault = scene_in(folder)
            self.assertEqual((lines, fault), (scene[: len(lines)], None))
            self.assertEqual(is_full, len(lines) < len(scene))

    def test_the_same_again(self):
        """What an earlier attempt of a test wrote is there once, until the test finished."""
        lines, failed = [], Attempt("fail:1", 1, b"same", None)
        run = Run(lambda line: lines.append(line.encode()), 2, 1)
        for _ in range(2):
            run.retry("alpha", "t1", failed, 1, 3)
        for name in ("t1", "t1", "t2"):
            run.done("alpha", name, [failed, failed])
        folder = self.recorded(b"".join(lines))
        self.assertEqual(((folder / OUTPUTS).read_bytes(), scene_in(folder)), (b"same" * 3, (lines, None)))

    def test_a_long_line(self):
        scene = b"#" + b"x" * (1 << 20) + b"\n"
        self.assertEqual(scene_in(self.recorded(scene)), ([scene], None))

    def test_folders(self):
        folder = self.recorded(b"")
        self.assertEqual([*RecordedRun(folder).scene()], [])
        with self.assertRaisesRegex(Bad, f"^{folder} has {LINES} and {OUTPUTS} already$"):
            Recorder(folder)
        for names, said in (((LINES,), f"no {LINES}"), ((LINES, OUTPUTS), f"no {LINES} and no {OUTPUTS}")):
            for name in names:
                (folder / name).unlink(missing_ok=True)
            with self.subTest(names=names), self.assertRaisesRegex(Bad, f"^{folder} has {said}$"):
                RecordedRun(folder)
        recorded.check_place("a new folder")
        with mock.patch("os.access", lambda place, how: False), self.assertRaises(Bad) as refused:
            recorded.check_place("a/new/folder")
        self.assertEqual(str(refused.exception), "cannot write : Permission denied")
        with mock.patch("os.makedirs", side_effect=OSError(28, "No space")):
            with self.assertRaisesRegex(Bad, f"^cannot write {folder}: No space$"):
                Recorder(folder)
        Recorder(folder)
        (folder / LINES).unlink()
        for place, said in (
            (folder, f"{folder} has {OUTPUTS} already"),
            (folder / OUTPUTS / "x", f"cannot write {folder / OUTPUTS}: File exists"),
        ):
            with self.subTest(place=place), self.assertRaisesRegex(Bad, f"^{said}$"):
                Recorder(place)

    def test_files_that_are_removed(self):
        recorder = Recorder(folder := self.place())
        recorder.end()
        (folder / OUTPUTS).unlink()
        self.assertRaises(NotWritten, recorder.end)


class Sums(unittest.TestCase):
    def test_sum(self):
        """Python's own hash is the same, where it has no other start."""
        texts = [b"", b"a", b"1234567", b"12345678", b"\xff" * 9, OUTPUT * 9, OUTPUT * 30]
        script = "from norigully import recorded as it\n"
        script += f"print([(it.sum_of(text).decode(), '%016x' % it.sip_hash(text)) for text in {texts}])"
        env = {**os.environ, "PYTHONHASHSEED": "0", "PYTHONPATH": "scripts"}
        ran = subprocess.run([sys.executable, "-c", script], env=env, cwd=TOP, capture_output=True, text=True)
        self.assertEqual(ran.stdout.strip(), str([("%016x" % recorded.sip_hash(it),) * 2 for it in texts]))

    def with_python(self, algorithm, is_random):
        """As if this were a Python with such hashes."""
        flags, info = mock.Mock(hash_randomization=is_random), mock.Mock(algorithm=algorithm)
        return mock.patch(
            "norigully.recorded.sys", mock.Mock(flags=flags, hash_info=info, executable="py", orig_argv=["py", "x"])
        )

    def test_own_hashes(self):
        slow = b"%016x" % recorded.sip_hash(b"a")
        for algorithm, is_random, own, wanted in (
            ("siphash13", False, 5, b"0000000000000005"),
            ("siphash13", False, -1, b"ffffffffffffffff"),
            ("siphash13", False, -2, slow),
            ("siphash13", True, 5, slow),
            ("siphash24", False, 5, slow),
        ):
            hashes = mock.patch("norigully.recorded.hash", lambda data, own=own: own, create=True)
            with self.subTest(algorithm=algorithm, own=own), self.with_python(algorithm, is_random), hashes:
                self.assertEqual(recorded.sum_of(b"a"), wanted)
                self.assertEqual(recorded.sum_of(b""), b"%016x" % recorded.sip_hash(b""))

    def test_quick_sums(self):
        """A script starts anew where that helps, and what it starts then has the variable as it was."""
        own, seed = "NORIGULLY_PYTHONHASHSEED", "PYTHONHASHSEED"
        for algorithm, is_random, before, after, anew in (
            ("siphash13", True, {}, {}, {own: "", seed: "0"}),
            ("siphash13", True, {seed: "5"}, {seed: "5"}, {own: "5", seed: "0"}),
            ("siphash13", False, {}, {}, None),
            ("siphash24", True, {}, {}, None),
            ("siphash13", True, {own: "", seed: "0"}, {}, None),
            ("siphash13", False, {own: "5", seed: "0"}, {seed: "5"}, None),
        ):
            variables, python = mock.patch.dict(os.environ, before, clear=True), self.with_python(algorithm, is_random)
            with self.subTest(before=before), python, variables, mock.patch("os.execve") as began:
                recorded.quick_sums()
                self.assertEqual(dict(os.environ), after)
                self.assertEqual([it.args for it in began.call_args_list], [("py", ["py", "x"], anew)] if anew else [])

    def test_reference_of_another_implementation(self):
        """The sums of SipHash-1-3 with the key 0, as Rust's hasher has them."""
        self.assertEqual(b"%016x" % recorded.sip_hash(b""), b"d1fba762150c532c")

    def test_streams_of_other_lines(self):
        self.assertEqual(recorded.fields_of(b"#done\t"), [])
        self.assertEqual(recorded.streams_of([b"skip", b"-", b"a", b"b"]), [])
        self.assertEqual(recorded.comment(0), b"")
        self.assertEqual(io.BytesIO(recorded.comment(2)).read(), b"#\n")


if __name__ == "__main__":
    unittest.main()
